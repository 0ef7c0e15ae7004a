#include "instrument.h"
#include "asking.h"
#include "calls.h"
#include "code.h"
#include "decode.h"
#include "events.h"
#include "labels.h"
#include "old.h"
#include "options.h"
#include "turns.h"

enum { CLFLUSHOPT_AND_CLWB = 1 << 23 | 1 << 24 };

Addr unknown_instruction;
HChar unknown_text[300];

/* What the translated code calls. */

static void on_store(Addr start, SizeT length, Addr instruction) {
    note_store(start, length, instruction);
}

static void on_step(Addr start, SizeT length, Addr instruction) {
    note_step(start, length, instruction);
}

static void on_streamed(Addr start, SizeT length, Addr instruction) {
    note_streamed(start, length, instruction);
}

/* The bytes of a masked store whose masks are set, in runs. */
static void on_masked(Addr start, ULong low, ULong high, Addr instruction) {
    Int at = 0;
    while (at < 16) {
        Int from = at;
        while (at < 16 && ((at < 8 ? low >> (8 * at) : high >> (8 * (at - 8))) & 1))
            at++;
        if (at > from)
            note_streamed(start + (Addr)from, (SizeT)(at - from), instruction);
        else
            at++;
    }
}

static void on_unread_mask(Addr start, SizeT length, Addr instruction) {
    notes.failed_masks++;
    note_streamed(start, length, instruction);
}

static void on_locked(Addr instruction) {
    note_locked(instruction);
    give_way();
}

static void on_flush(Addr place, UWord kind) {
    note_flush((FlushKind)(kind & 3), place, (Addr)(kind >> 2));
    give_way();
}

static void on_fence(UWord full, Addr instruction) {
    note_fence(full != 0, instruction);
    give_way();
}

/* Valgrind says of its processor that it has no clflushopt and no clwb, and libraries would do without. */
static void on_cpuid(VexGuestAMD64State *registers, ULong leaf, ULong part) {
    if ((UInt)leaf == 7 && (UInt)part == 0)
        registers->guest_RBX |= CLFLUSHOPT_AND_CLWB;
}

static void on_unknown(Addr instruction) {
    const UChar *bytes = (const UChar *)instruction;
    unknown_instruction = instruction;
    VG_(snprintf)(unknown_text, sizeof unknown_text, "%s that Valgrind does not know (bytes %02x %02x %02x %02x %02x %02x) at %s",
                  name_unknown(instruction), bytes[0], bytes[1], bytes[2], bytes[3], bytes[4], bytes[5], place_of(instruction));
}

static void on_before_store(Addr start, SizeT length) {
    keep_old(start, length);
}

/* Stores. */

static IRExpr *definition(const IRSB *code, const IRExpr *value) {
    Int at;
    if (value->tag != Iex_RdTmp)
        return NULL;
    for (at = 0; at < code->stmts_used; at++) {
        const IRStmt *statement = code->stmts[at];
        if (statement != NULL && statement->tag == Ist_WrTmp && statement->Ist.WrTmp.tmp == value->Iex.RdTmp.tmp)
            return statement->Ist.WrTmp.data;
    }
    return NULL;
}

/* A masked store is translated as a store of (new & mask) | (old & ~mask): gives the mask, or NULL where it isn't seen. */
static IRExpr *mask_of(const IRSB *code, const IRExpr *stored) {
    IRExpr *either = definition(code, stored), *part, *inverted;
    Int side, inner;
    if (either == NULL || either->tag != Iex_Binop)
        return NULL;
    for (side = 0; side < 2; side++) {
        part = definition(code, side == 0 ? either->Iex.Binop.arg1 : either->Iex.Binop.arg2);
        if (part == NULL || part->tag != Iex_Binop)
            continue;
        for (inner = 0; inner < 2; inner++) {
            inverted = definition(code, inner == 0 ? part->Iex.Binop.arg1 : part->Iex.Binop.arg2);
            if (inverted != NULL && inverted->tag == Iex_Unop &&
                (inverted->Iex.Unop.op == Iop_NotV128 || inverted->Iex.Unop.op == Iop_Not64))
                return inverted->Iex.Unop.arg;
        }
    }
    return NULL;
}

static void add_masked(Writer *writer, const IRSB *code, IRExpr *address, IRExpr *stored, UInt length) {
    IRExpr *mask = mask_of(code, stored), *low, *high;
    IRExpr *guard = may_be_in_pools(writer, address), *instruction = constant(writer->instruction);
    if (mask == NULL) {
        call(writer, "on_unread_mask", on_unread_mask, guard, address, constant(length), instruction, NULL);
        return;
    }
    low = length == 8 ? mask : computed(writer, Ity_I64, IRExpr_Unop(Iop_V128to64, mask));
    high = length == 8 ? constant(0) : computed(writer, Ity_I64, IRExpr_Unop(Iop_V128HIto64, mask));
    call(writer, "on_masked", on_masked, guard, address, low, high, instruction);
}

static void add_store(Writer *writer, const IRSB *code, IRExpr *address, IRExpr *stored) {
    UInt length = (UInt)sizeofIRType(typeOfIRExpr(code->tyenv, stored));
    StoreKind kind = decode_store(writer->instruction, writer->length);
    if (kind == MASKED_STORE) {
        add_masked(writer, code, address, stored, length);
        return;
    }
    void *function = kind == STEP_STORE ? (void *)on_step : kind == STREAMED_STORE ? (void *)on_streamed : (void *)on_store;
    call(writer, "on_store", function, may_be_in_pools(writer, address), address, constant(length), constant(writer->instruction),
         NULL);
}

static void add_guarded(Writer *writer, IRExpr *address, UInt length, IRExpr *guard) {
    call(writer, "on_store", on_store, both(writer, guard, may_be_in_pools(writer, address)), address, constant(length),
         constant(writer->instruction), NULL);
}

/* A compare and swap stores only where it found what it expected. */
static void add_swap(Writer *writer, const IRSB *code, const IRCAS *swap) {
    IRType type = typeOfIRExpr(code->tyenv, swap->dataLo);
    IROp equal = type == Ity_I8 ? Iop_CmpEQ8 : type == Ity_I16 ? Iop_CmpEQ16 : type == Ity_I32 ? Iop_CmpEQ32 : Iop_CmpEQ64;
    IRExpr *found = computed(writer, Ity_I1, IRExpr_Binop(equal, IRExpr_RdTmp(swap->oldLo), swap->expdLo));
    if (swap->dataHi != NULL) {
        IRExpr *high = computed(writer, Ity_I1, IRExpr_Binop(equal, IRExpr_RdTmp(swap->oldHi), swap->expdHi));
        found = both(writer, found, high);
    }
    add_guarded(writer, swap->addr, (UInt)sizeofIRType(type) * (swap->dataHi != NULL ? 2 : 1), found);
}

/* Functions of the translator that stand for an instruction: x87, fxsave, xsave. */
static void add_helper_store(Writer *writer, const IRDirty *helper) {
    if (helper->mFx == Ifx_Write || helper->mFx == Ifx_Modify)
        add_guarded(writer, helper->mAddr, (UInt)helper->mSize, helper->guard);
}

static void add_fence(Writer *writer) {
    FenceKind kind = decode_fence(writer->instruction, writer->length);
    if (kind != NO_FENCE)
        call(writer, "on_fence", on_fence, NULL, constant(kind == MFENCE), constant(writer->instruction), NULL, NULL);
}

/* CPUID, with what it was asked before. */
static void add_cpuid(Writer *writer, IRStmt *statement) {
    IRExpr *leaf = computed(writer, Ity_I64, IRExpr_Get(offsetof(VexGuestAMD64State, guest_RAX), Ity_I64));
    IRExpr *part = computed(writer, Ity_I64, IRExpr_Get(offsetof(VexGuestAMD64State, guest_RCX), Ity_I64));
    addStmtToIRSB(writer->code, statement);
    call_with_registers(writer, "on_cpuid", on_cpuid, offsetof(VexGuestAMD64State, guest_RBX), leaf, part);
}

static void add_after(Writer *writer, const IRSB *code, IRStmt *statement) {
    switch (statement->tag) {
    case Ist_Store:
        add_store(writer, code, statement->Ist.Store.addr, statement->Ist.Store.data);
        break;
    case Ist_StoreG: {
        const IRStoreG *store = statement->Ist.StoreG.details;
        add_guarded(writer, store->addr, (UInt)sizeofIRType(typeOfIRExpr(code->tyenv, store->data)), store->guard);
        break;
    }
    case Ist_CAS:
        add_swap(writer, code, statement->Ist.CAS.details);
        break;
    case Ist_Dirty:
        add_helper_store(writer, statement->Ist.Dirty.details);
        break;
    case Ist_MBE:
        add_fence(writer);
        break;
    default:
        break;
    }
}

static void add_before_store(Writer *writer, IRExpr *address, UInt length) {
    call(writer, "on_before_store", on_before_store, may_be_in_pools(writer, address), address, constant(length), NULL, NULL);
}

static void add_before(Writer *writer, const IRSB *code, IRStmt *statement) {
    if (statement->tag == Ist_Store)
        add_before_store(writer, statement->Ist.Store.addr, (UInt)sizeofIRType(typeOfIRExpr(code->tyenv, statement->Ist.Store.data)));
    else if (statement->tag == Ist_StoreG) {
        const IRStoreG *store = statement->Ist.StoreG.details;
        add_before_store(writer, store->addr, (UInt)sizeofIRType(typeOfIRExpr(code->tyenv, store->data)));
    } else if (statement->tag == Ist_CAS) {
        const IRCAS *swap = statement->Ist.CAS.details;
        add_before_store(writer, swap->addr, (UInt)sizeofIRType(typeOfIRExpr(code->tyenv, swap->dataLo)) * (swap->dataHi != NULL ? 2 : 1));
    } else if (statement->tag == Ist_Dirty) {
        const IRDirty *helper = statement->Ist.Dirty.details;
        if (helper->mFx == Ifx_Write || helper->mFx == Ifx_Modify)
            add_before_store(writer, helper->mAddr, (UInt)helper->mSize);
    }
}

static void add_statement(Writer *writer, const IRSB *code, IRStmt *statement) {
    Bool first = writer->instruction == 0;
    if (statement->tag == Ist_IMark) {
        writer->instruction = statement->Ist.IMark.addr;
        writer->length = statement->Ist.IMark.len;
    }
    if (options.base && writer->instruction != 0)
        add_before(writer, code, statement);
    if (statement->tag == Ist_CAS)
        call(writer, "on_locked", on_locked, NULL, constant(writer->instruction), NULL, NULL, NULL);
    if (statement->tag == Ist_Dirty && VG_(strstr)(statement->Ist.Dirty.details->cee->name, "CPUID") != NULL)
        add_cpuid(writer, statement);
    else
        addStmtToIRSB(writer->code, statement);
    follow_pointer(writer, statement);
    if (writer->instruction != 0)
        add_after(writer, code, statement);
    if (statement->tag == Ist_IMark && first)
        add_plain_unlock(writer);
    if (statement->tag == Ist_IMark)
        add_entry(writer);
}

static IRExpr *sum(Writer *writer, IRExpr *one, IRExpr *other) {
    return computed(writer, Ity_I64, IRExpr_Binop(Iop_Add64, one, other));
}

/* The code ends before an instruction that the translator does not know: a flush is noted and gone over. */
static void add_flush(Writer *writer, const Flush *flush) {
    IRExpr *address = computed(writer, Ity_I64, constant((ULong)flush->displacement));
    if (flush->base >= 0)
        address = sum(writer, address, guest_register(writer, flush->base));
    if (flush->index >= 0) {
        IRExpr *index = guest_register(writer, flush->index);
        IRExpr *scaled = computed(writer, Ity_I64, IRExpr_Binop(Iop_Shl64, index, IRExpr_Const(IRConst_U8((UChar)flush->shift))));
        address = sum(writer, address, scaled);
    }
    if (flush->half_address)
        address = computed(writer, Ity_I64, IRExpr_Binop(Iop_And64, address, constant(0xffffffff)));
    if (flush->thread_segment) {
        IRExpr *segment = IRExpr_Get(offsetof(VexGuestAMD64State, guest_FS_CONST), Ity_I64);
        address = sum(writer, address, computed(writer, Ity_I64, segment));
    }
    call(writer, "on_flush", on_flush, NULL, address, constant(writer->instruction << 2 | (ULong)flush->kind), NULL, NULL);
    writer->code->jumpkind = Ijk_Boring;
    writer->code->next = constant(writer->instruction + (Addr)flush->length);
}

static Bool may_make_event(const IRSB *code) {
    Int at;
    for (at = 0; at < code->stmts_used; at++)
        if (code->stmts[at] != NULL && (code->stmts[at]->tag == Ist_Store || code->stmts[at]->tag == Ist_CAS ||
                                        code->stmts[at]->tag == Ist_MBE || code->stmts[at]->tag == Ist_StoreG))
            return True;
    return code->jumpkind == Ijk_NoDecode;
}

/* Where the thread is to give way the code begins again, by a jump backwards. */
static void add_way_out(Writer *writer, Addr begin) {
    IRExpr *flag = computed(writer, Ity_I64, IRExpr_Load(Iend_LE, Ity_I64, constant((ULong)&gives_way)));
    IRExpr *set = computed(writer, Ity_I1, IRExpr_Binop(Iop_CmpNE64, flag, constant(0)));
    addStmtToIRSB(writer->code, IRStmt_Exit(set, Ijk_Boring, IRConst_U64(begin), writer->layout->offset_IP));
}

IRSB *instrument(VgCallbackClosure *closure, IRSB *code, const VexGuestLayout *layout, const VexGuestExtents *extents,
                 const VexArchInfo *machine, IRType guest_word, IRType host_word) {
    /* the core writes the instruction pointer before a block */
    Writer writer = {.code = deepCopyIRSBExceptStmts(code), .layout = layout, .pointer = closure->nraddr};
    Asking asking = begin_asking(code);
    Flush flush;
    Int at;
    Bool looks = turns_are_drawn() && may_make_event(code);
    for (at = 0; at < code->stmts_used; at++) {
        if (looks && code->stmts[at] != NULL && code->stmts[at]->tag == Ist_IMark) {
            add_way_out(&writer, code->stmts[at]->Ist.IMark.addr);
            looks = False;
        }
        if (code->stmts[at] == NULL || code->stmts[at]->tag == Ist_NoOp)
            continue;
        add_question(&writer, &asking, code, at);
        add_statement(&writer, code, code->stmts[at]);
    }
    if ((code->jumpkind == Ijk_NoDecode || code->jumpkind == Ijk_InvalICache) && writer.instruction != 0) {
        if (decode_flush(writer.instruction, &flush))
            add_flush(&writer, &flush);
        else if (code->jumpkind == Ijk_NoDecode)
            call(&writer, "on_unknown", on_unknown, NULL, constant(writer.instruction), NULL, NULL, NULL);
    }
    add_call_or_return(&writer);
    return writer.code;
}
