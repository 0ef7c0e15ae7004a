#include "asking.h"
#include "decode.h"
#include "options.h"
#include "parting.h"

/* What a statement does to memory; nothing without an address. */
typedef struct {
    IRExpr *address, *guard;
    UInt length;
    Bool stores;
} Access;

static UInt bytes_of(const IRSB *code, const IRExpr *value) {
    return (UInt)sizeofIRType(typeOfIRExpr(code->tyenv, value));
}

static Access access_of_load(const IRLoadG *load) {
    IRType wide, loaded;
    typeOfIRLoadGOp(load->cvt, &wide, &loaded);
    return (Access){load->addr, load->guard, (UInt)sizeofIRType(loaded), False};
}

static Access access_of(const IRSB *code, const IRStmt *statement) {
    switch (statement->tag) {
    case Ist_WrTmp: {
        const IRExpr *value = statement->Ist.WrTmp.data;
        return value->tag == Iex_Load ? (Access){value->Iex.Load.addr, NULL, (UInt)sizeofIRType(value->Iex.Load.ty), False}
                                      : (Access){0};
    }
    case Ist_LoadG:
        return access_of_load(statement->Ist.LoadG.details);
    case Ist_Store:
        return (Access){statement->Ist.Store.addr, NULL, bytes_of(code, statement->Ist.Store.data), True};
    case Ist_StoreG: {
        const IRStoreG *store = statement->Ist.StoreG.details;
        return (Access){store->addr, store->guard, bytes_of(code, store->data), True};
    }
    case Ist_CAS: {
        const IRCAS *swap = statement->Ist.CAS.details;
        return (Access){swap->addr, NULL, bytes_of(code, swap->dataLo) * (swap->dataHi != NULL ? 2 : 1), True};
    }
    case Ist_Dirty: {
        const IRDirty *helper = statement->Ist.Dirty.details;
        return helper->mFx == Ifx_None ? (Access){0}
                                       : (Access){helper->mAddr, helper->guard, (UInt)helper->mSize, helper->mFx != Ifx_Read};
    }
    default:
        return (Access){0};
    }
}

/* Asks; where the answer is yes, the block is left for its instruction. */
static void ask_of(Writer *writer, const Access *access, UInt kind, UInt number) {
    IRTemp answer = newIRTemp(writer->code->tyenv, Ity_I64);
    IRExpr *what = constant((ULong)access->length << LENGTH_SHIFT | (number & MOST_ACCESSES) << ACCESS_SHIFT | kind);
    IRExpr *guard = access->guard, *leaves;
    IRDirty *called = unsafeIRDirty_1_N(answer, 0, "ask", VG_(fnptr_to_fnentry)(ask),
                                        mkIRExprVec_3(access->address, what, constant(writer->instruction)));
    if (!(kind & ASK_LOCKED) && !options.part_each) {
        IRExpr *within = may_be_in_pools(writer, access->address);
        guard = guard == NULL ? within : both(writer, guard, within);
    }
    if (guard != NULL)
        called->guard = guard;
    addStmtToIRSB(writer->code, IRStmt_Dirty(called));
    /* where it was not called its answer is neither 0 nor 1 */
    leaves = computed(writer, Ity_I1, IRExpr_Binop(Iop_CmpEQ64, IRExpr_RdTmp(answer), constant(1)));
    addStmtToIRSB(writer->code, IRStmt_Exit(leaves, Ijk_Boring, IRConst_U64(writer->instruction), writer->layout->offset_IP));
}

static Bool is_same_atom(const IRExpr *one, const IRExpr *other) {
    if (one->tag == Iex_RdTmp)
        return other->tag == Iex_RdTmp && one->Iex.RdTmp.tmp == other->Iex.RdTmp.tmp;
    return other->tag == Iex_Const && one->Iex.Const.con->Ico.U64 == other->Iex.Const.con->Ico.U64;
}

static Bool is_end_of_instruction(const IRSB *code, Int at) {
    return at >= code->stmts_used || (code->stmts[at] != NULL && code->stmts[at]->tag == Ist_IMark);
}

/* How many accesses the instruction had before; -1 where one of them was at this address. */
static Int count_before(const IRSB *code, Int from, Int at, const IRExpr *address) {
    Int count = 0;
    for (; from < at; from++) {
        Access before = code->stmts[from] == NULL ? (Access){0} : access_of(code, code->stmts[from]);
        if (before.address != NULL && is_same_atom(address, before.address))
            return -1;
        count += before.address != NULL;
    }
    return count;
}

/* A load that the instruction's store to that address follows is asked of as a store, once. */
static void ask_before(Writer *writer, const Asking *asking, const IRSB *code, Int at) {
    Access access = access_of(code, code->stmts[at]);
    UInt kind = access.stores ? ASK_STORE : 0;
    Int number = access.address == NULL ? -1 : count_before(code, asking->from, at, access.address);
    if (number < 0)
        return;
    for (; !is_end_of_instruction(code, at); at++) {
        if (code->stmts[at] == NULL)
            continue;
        Access later = access_of(code, code->stmts[at]);
        if (code->stmts[at]->tag == Ist_CAS)
            kind |= ASK_LOCKED;
        if (later.address != NULL && later.stores && is_same_atom(access.address, later.address)) {
            kind |= ASK_STORE;
            access.length = later.length > access.length ? later.length : access.length;
        }
    }
    ask_of(writer, &access, kind, (UInt)number);
}

/* A step of a repeated string instruction counts down before it loads and stores: it asks before that, by its registers. */
static void ask_before_step(Writer *writer, const IRSB *code, Int at) {
    enum { SOURCE = 6, DESTINATION = 7 };
    Access step = {0};
    for (; step.length == 0 && !is_end_of_instruction(code, at); at++)
        if (code->stmts[at] != NULL && code->stmts[at]->tag == Ist_Store)
            step = access_of(code, code->stmts[at]);
    if (step.length == 0)
        return;
    if (is_string_copy(writer->instruction, writer->length)) {
        step.address = guest_register(writer, SOURCE);
        ask_of(writer, &step, 0, 0);
    }
    step.address = guest_register(writer, DESTINATION);
    ask_of(writer, &step, ASK_STORE, 1);
}

/* Whether a statement does what would be done twice if the instruction began again. */
static Bool does_something(const Writer *writer, const IRStmt *statement) {
    switch (statement->tag) {
    case Ist_Put:
        return statement->Ist.Put.offset != writer->layout->offset_IP;
    case Ist_PutI:
    case Ist_Store:
    case Ist_StoreG:
    case Ist_CAS:
    case Ist_LLSC:
    case Ist_Dirty:
        return True;
    default:
        return False;
    }
}

static Bool counts_down(const Writer *writer, const IRStmt *statement) {
    return statement->tag == Ist_Put && statement->Ist.Put.offset == offsetof(VexGuestAMD64State, guest_RCX) &&
           decode_store(writer->instruction, writer->length) == STEP_STORE;
}

/* Of what x87 instructions write to their stack the translator drops what is overwritten, whatever comes between: such a block is left
 * before its first instruction alone. */
Asking begin_asking(const IRSB *code) {
    Asking begun = {0};
    Int at;
    for (at = 0; at < code->stmts_used; at++)
        if (code->stmts[at] != NULL && code->stmts[at]->tag == Ist_PutI)
            begun.first_only = True;
    return begun;
}

void add_question(Writer *writer, Asking *asking, const IRSB *code, Int at) {
    const IRStmt *statement = code->stmts[at];
    if (!asks)
        return;
    if (statement->tag == Ist_IMark) {
        asking->whole = !(asking->first_only && asking->from > 0);
        asking->from = at + 1;
    } else if (asking->from > 0 && asking->whole) {
        if (counts_down(writer, statement))
            ask_before_step(writer, code, at);
        else
            ask_before(writer, asking, code, at);
        asking->whole = !does_something(writer, statement);
    }
}
