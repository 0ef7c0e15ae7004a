/* Robust locks of pthread that lie in a pool: where their owner ends, the kernel marks them. */
#ifndef ROBUST_H
#define ROBUST_H

#include "core.h"

/* A thread has told the kernel where its list of locks begins. */
void robust_list_set(ThreadId thread, Addr head);

/* Notes the marks that the kernel makes when the thread ends, or all threads. */
void note_robust_locks(ThreadId thread);
void note_all_robust_locks(void);

#endif
