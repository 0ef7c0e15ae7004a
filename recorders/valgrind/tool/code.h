/* Pieces of translated code that the recorder adds. */
#ifndef CODE_H
#define CODE_H

#include "core.h"

/* The code that is being written, and the instruction that it is of. */
typedef struct {
    IRSB *code;
    const VexGuestLayout *layout;
    Addr instruction;
    UInt length;  /* of the instruction */
    Addr pointer; /* what the program's instruction pointer holds where the code has come to, 0 if it is not known */
} Writer;

/* Follows what a statement of the program writes to its instruction pointer. */
void follow_pointer(Writer *writer, const IRStmt *statement);

IRExpr *constant(ULong value);
IRExpr *computed(Writer *writer, IRType type, IRExpr *value);
IRExpr *both(Writer *writer, IRExpr *one, IRExpr *other);

/* Whether an address may be one in a pool, found out when the code runs. */
IRExpr *may_be_in_pools(Writer *writer, IRExpr *address);

/* A register of the program, as a value. */
IRExpr *guest_register(Writer *writer, Int number);

/* Calls a function with these arguments (NULL at the end where there are fewer), where the guard holds, if there is one. The
 * stack can be unwound in it. */
void call(Writer *writer, const HChar *name, void *function, IRExpr *guard, IRExpr *first, IRExpr *second, IRExpr *third,
          IRExpr *fourth);

/* Calls a function with the thread's registers as its first argument, which changes one of them at `offset`. */
void call_with_registers(Writer *writer, const HChar *name, void *function, Int offset, IRExpr *second, IRExpr *third);

#endif
