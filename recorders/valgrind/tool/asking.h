/* Where translated code asks whether a turn ends: before the first accesses of an instruction, as long as nothing of it is done. Their
 * addresses are there, and a block that is left begins again with this instruction. */
#ifndef ASKING_H
#define ASKING_H

#include "code.h"

/* Of the block that is translated: behind which statement its instruction begins, 0 before the first; and whether all of that is to be done. */
typedef struct {
    Int from;
    Bool whole, first_only;
} Asking;

Asking begin_asking(const IRSB *code);

/* Told of each statement, in order, before it is added. */
void add_question(Writer *writer, Asking *asking, const IRSB *code, Int at);

#endif
