#include "calls.h"
#include "events.h"
#include "labels.h"
#include "options.h"
#include "output.h"
#include "pools.h"
#include "turns.h"
#include "windows.h"

enum { MOST_ACTIVE = 256 };

/* What a call of a named function is waited for. */
typedef enum { STARTS, STOPS, PERSISTS } Purpose;

typedef struct {
    Purpose purpose;
    const PersistFunction *persist; /* of PERSISTS */
    WantedName name;
    Bool called;
} Named;

/* A call that has not returned yet, by the stack pointer at its entry. */
typedef struct {
    const Named *function;
    Addr stack;
    Addr back; /* where it is to return to: an exception goes elsewhere */
    Addr start;
    SizeT length;
    const HChar *label;
} Active;

typedef struct {
    Active calls[MOST_ACTIVE];
    Int count;
    Addr called; /* the stack pointer behind the last call instruction */
} ThreadCalls;

CallCounts call_counts;

static Named named[MOST_FUNCTIONS + 2];
static Int named_count;
static ThreadCalls **threads;
/* Read by the program's translated code: how many calls are active, in all threads. */
static UWord active;

static void add_named(Purpose purpose, const HChar *name, const PersistFunction *persist) {
    if (name != NULL)
        named[named_count++] = (Named){purpose, persist, {.wanted = name}, False};
}

void begin_calls(void) {
    Int at;
    add_named(STARTS, options.start_after, NULL);
    add_named(STOPS, options.stop_at, NULL);
    for (at = 0; at < options.persist_count; at++)
        add_named(PERSISTS, options.persists[at].name, &options.persists[at]);
    threads = VG_(calloc)("calls.threads", VG_N_THREADS, sizeof *threads);
}

const WantedName *wanted_function(Int number, Bool *called) {
    if (number >= named_count)
        return NULL;
    *called = named[number].called;
    return &named[number].name;
}

static ThreadCalls *calls_of_running(void) {
    ThreadId thread = VG_(get_running_tid)();
    if (threads[thread] == NULL)
        threads[thread] = VG_(calloc)("calls.thread", 1, sizeof **threads);
    return threads[thread];
}

/* Forgets the calls that were left without a return, as by longjmp: those whose frame lies below this place. */
static void forget_left(ThreadCalls *calls, Addr place) {
    while (calls->count > 0 && calls->calls[calls->count - 1].stack < place) {
        calls->count--;
        active--;
        call_counts.unreturned++;
    }
}

static UWord argument(const VexGuestAMD64State *registers, Int number) {
    const UWord arguments[6] = {registers->guest_RDI, registers->guest_RSI, registers->guest_RDX,
                                registers->guest_RCX, registers->guest_R8,  registers->guest_R9};
    return arguments[number - 1];
}

static void push_call(const Named *function, const VexGuestAMD64State *registers) {
    ThreadCalls *calls = calls_of_running();
    Addr stack = registers->guest_RSP;
    Active entered = {.function = function, .stack = stack, .back = *(const Addr *)stack};
    Int at;
    /* a call has a frame of its own; a jump to the first instruction may be a tail call, or a loop in the function itself */
    forget_left(calls, calls->called == stack ? stack + 1 : stack);
    calls->called = 0;
    for (at = calls->count - 1; at >= 0 && calls->calls[at].stack == stack; at--)
        if (calls->calls[at].function == function)
            return;
    if (calls->count == MOST_ACTIVE) {
        call_counts.unreturned++;
        return;
    }
    if (function->purpose == PERSISTS) {
        entered.start = argument(registers, function->persist->address);
        entered.length = argument(registers, function->persist->length);
        entered.label = label_of_caller(VG_(get_running_tid)());
    }
    calls->calls[calls->count++] = entered;
    active++;
}

static void on_entry(VexGuestAMD64State *registers, UWord number) {
    Named *function = &named[number];
    function->called = True;
    if (function->purpose != STOPS)
        push_call(function, registers);
    else
        close_window();
}

static void returned(const Active *call) {
    if (call->function->purpose == STARTS)
        open_window(VG_(get_running_tid)());
    else if (call->function->purpose == PERSISTS && call->length > 0)
        note_is_persist(VG_(get_running_tid)(), claimed_memory(call->start, call->length), call->label);
}

static void on_call(Addr stack) {
    calls_of_running()->called = stack;
}

/* The stack pointer is that after the return, one word above where it was at the call's entry. */
static void on_return(Addr stack, Addr back) {
    ThreadCalls *calls = calls_of_running();
    forget_left(calls, stack - sizeof(Addr));
    while (calls->count > 0 && calls->calls[calls->count - 1].stack == stack - sizeof(Addr)) {
        const Active *call = &calls->calls[--calls->count];
        active--;
        if (call->back == back)
            returned(call);
        else
            call_counts.unreturned++;
    }
}

/* A lock that is given up by a plain store, which no locked instruction tells. In glibc pthread_spin_init and pthread_spin_unlock are one
 * piece of code, so either name may stand there. */
static void on_plain_unlock(Addr instruction) {
    give_way();
}

void add_plain_unlock(Writer *writer) {
    const HChar *name;
    if (VG_(get_fnname_if_entry)(VG_(current_DiEpoch)(), writer->instruction, &name) && VG_(strstr)(name, "pthread_spin_") != NULL)
        call(writer, "on_plain_unlock", on_plain_unlock, NULL, constant(writer->instruction), NULL, NULL, NULL);
}

void add_entry(Writer *writer) {
    const HChar *name;
    Int at;
    if (named_count == 0 || !VG_(get_fnname_if_entry)(VG_(current_DiEpoch)(), writer->instruction, &name))
        return;
    for (at = 0; at < named_count; at++)
        if (is_meant(&named[at].name, name))
            call_with_registers(writer, "on_entry", on_entry, offsetof(VexGuestAMD64State, guest_IP_AT_SYSCALL),
                                constant((ULong)at), NULL);
}

void add_call_or_return(Writer *writer) {
    IRExpr *stack, *count, *any;
    if (named_count == 0 || (writer->code->jumpkind != Ijk_Call && writer->code->jumpkind != Ijk_Ret))
        return;
    stack = computed(writer, Ity_I64, IRExpr_Get(writer->layout->offset_SP, Ity_I64));
    if (writer->code->jumpkind == Ijk_Call) {
        call(writer, "on_call", on_call, NULL, stack, NULL, NULL, NULL);
        return;
    }
    count = computed(writer, Ity_I64, IRExpr_Load(Iend_LE, Ity_I64, constant((ULong)&active)));
    any = computed(writer, Ity_I1, IRExpr_Binop(Iop_CmpNE64, count, constant(0)));
    call(writer, "on_return", on_return, any, stack, writer->code->next, NULL, NULL);
}
