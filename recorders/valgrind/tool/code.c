#include "code.h"
#include "pools.h"

IRExpr *constant(ULong value) {
    return IRExpr_Const(IRConst_U64(value));
}

IRExpr *computed(Writer *writer, IRType type, IRExpr *value) {
    IRTemp place = newIRTemp(writer->code->tyenv, type);
    addStmtToIRSB(writer->code, IRStmt_WrTmp(place, value));
    return IRExpr_RdTmp(place);
}

IRExpr *both(Writer *writer, IRExpr *one, IRExpr *other) {
    IRExpr *first = computed(writer, Ity_I32, IRExpr_Unop(Iop_1Uto32, one));
    IRExpr *second = computed(writer, Ity_I32, IRExpr_Unop(Iop_1Uto32, other));
    IRExpr *joined = computed(writer, Ity_I32, IRExpr_Binop(Iop_And32, first, second));
    return computed(writer, Ity_I1, IRExpr_Unop(Iop_32to1, joined));
}

IRExpr *may_be_in_pools(Writer *writer, IRExpr *address) {
    IRExpr *begin = computed(writer, Ity_I64, IRExpr_Load(Iend_LE, Ity_I64, constant((ULong)&pools_begin)));
    IRExpr *span = computed(writer, Ity_I64, IRExpr_Load(Iend_LE, Ity_I64, constant((ULong)&pools_span)));
    IRExpr *distance = computed(writer, Ity_I64, IRExpr_Binop(Iop_Sub64, address, begin));
    return computed(writer, Ity_I1, IRExpr_Binop(Iop_CmpLT64U, distance, span));
}

IRExpr *guest_register(Writer *writer, Int number) {
    static const Int offsets[16] = {
        offsetof(VexGuestAMD64State, guest_RAX), offsetof(VexGuestAMD64State, guest_RCX), offsetof(VexGuestAMD64State, guest_RDX),
        offsetof(VexGuestAMD64State, guest_RBX), offsetof(VexGuestAMD64State, guest_RSP), offsetof(VexGuestAMD64State, guest_RBP),
        offsetof(VexGuestAMD64State, guest_RSI), offsetof(VexGuestAMD64State, guest_RDI), offsetof(VexGuestAMD64State, guest_R8),
        offsetof(VexGuestAMD64State, guest_R9),  offsetof(VexGuestAMD64State, guest_R10), offsetof(VexGuestAMD64State, guest_R11),
        offsetof(VexGuestAMD64State, guest_R12), offsetof(VexGuestAMD64State, guest_R13), offsetof(VexGuestAMD64State, guest_R14),
        offsetof(VexGuestAMD64State, guest_R15)};
    return computed(writer, Ity_I64, IRExpr_Get(offsets[number], Ity_I64));
}

void follow_pointer(Writer *writer, const IRStmt *statement) {
    const IRExpr *value;
    if (statement->tag != Ist_Put || statement->Ist.Put.offset != writer->layout->offset_IP)
        return;
    value = statement->Ist.Put.data;
    writer->pointer = value->tag == Iex_Const ? value->Iex.Const.con->Ico.U64 : 0;
}

/* The stack is unwound from the instruction pointer on. The translator does not write it where its code goes on in a function that is
 * called, or behind a jump, nor before an instruction that it does not know: there it is that of an earlier instruction, which does not
 * fit the stack pointer, and callers would be missing. */
static void put_pointer(Writer *writer) {
    if (writer->pointer == writer->instruction)
        return;
    addStmtToIRSB(writer->code, IRStmt_Put(writer->layout->offset_IP, constant(writer->instruction)));
    writer->pointer = writer->instruction;
}

static void reads(IRDirty *called, Int which, Int offset, Int size) {
    called->fxState[which].fx = Ifx_Read;
    called->fxState[which].offset = (UShort)offset;
    called->fxState[which].size = (UShort)size;
}

/* What unwinding the stack reads, which is in place before the call. */
static void reads_frame(Writer *writer, IRDirty *called) {
    const VexGuestLayout *layout = writer->layout;
    put_pointer(writer);
    VG_(memset)(&called->fxState, 0, sizeof called->fxState);
    called->nFxState = 3;
    reads(called, 0, layout->offset_SP, layout->sizeof_SP);
    reads(called, 1, layout->offset_IP, layout->sizeof_IP);
    reads(called, 2, layout->offset_FP, layout->sizeof_FP);
}

static IRExpr **arguments(IRExpr *first, IRExpr *second, IRExpr *third, IRExpr *fourth) {
    if (fourth != NULL)
        return mkIRExprVec_4(first, second, third, fourth);
    if (third != NULL)
        return mkIRExprVec_3(first, second, third);
    return second != NULL ? mkIRExprVec_2(first, second) : mkIRExprVec_1(first);
}

void call(Writer *writer, const HChar *name, void *function, IRExpr *guard, IRExpr *first, IRExpr *second, IRExpr *third,
          IRExpr *fourth) {
    IRDirty *called = unsafeIRDirty_0_N(0, name, VG_(fnptr_to_fnentry)(function), arguments(first, second, third, fourth));
    if (guard != NULL)
        called->guard = guard;
    reads_frame(writer, called);
    addStmtToIRSB(writer->code, IRStmt_Dirty(called));
}

void call_with_registers(Writer *writer, const HChar *name, void *function, Int offset, IRExpr *second, IRExpr *third) {
    IRDirty *called =
        unsafeIRDirty_0_N(0, name, VG_(fnptr_to_fnentry)(function), arguments(IRExpr_GSPTR(), second, third, NULL));
    reads_frame(writer, called);
    called->nFxState = 4;
    called->fxState[3].fx = Ifx_Modify;
    called->fxState[3].offset = (UShort)offset;
    called->fxState[3].size = sizeof(ULong);
    addStmtToIRSB(writer->code, IRStmt_Dirty(called));
}
