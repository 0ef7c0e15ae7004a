/* A turn that ends before an access. Translated code asks before the first accesses of an instruction, while nothing of it is done; where
 * the answer is yes the block is left, the turn ends, and the thread begins with this instruction when it has its next one. */
#ifndef PARTING_H
#define PARTING_H

#include "core.h"

/* What is asked of: the kind, and behind it which access of the instruction it is, and how many bytes it has. */
enum { ASK_STORE = 1, ASK_LOCKED = 2, ACCESS_SHIFT = 2, LENGTH_SHIFT = 6, MOST_ACCESSES = 15 };

/* Whether translated code asks. */
extern Bool asks;

void begin_parting(void);

/* There is to be a second thread, or process: code is translated anew, so that it asks. A program of one thread does without. */
void part_from_now_on(void);

/* Asked before an access: 1 where the block is to be left. */
UWord ask(Addr address, UWord what, Addr instruction);

#endif
