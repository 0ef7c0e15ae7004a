/* What was not safe when a program became this one: it begins the trace of the process, as a window begins. It is handed on in the file
 * TRACE.PID.carried, by the files' numbers, as pools get their addresses anew. */
#ifndef INHERITED_H
#define INHERITED_H

#include "pools.h"

/* Told before the program becomes another one, which is recorded; and where it did not. */
void hand_on(void);
void take_back(void);

/* A program that another one became finds what that left. */
void begin_inherited(void);

/* A pool is there from now on: what was not safe of it is noted. */
void inherit(const Pool *pool);

#endif
