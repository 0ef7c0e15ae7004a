/* Processes that the program begins, and programs that it becomes. */
#ifndef CHILDREN_H
#define CHILDREN_H

#include "core.h"

/* How many children are not recorded. */
extern ULong unrecorded_children;

/* Children that have traces of their own count their events, to the end of this process, in memory that they share with it. */
void begin_children(void);
void count_for_parent(SizeT count);
ULong events_of_children(void);

/* The trace that this process writes: FILE, or of a child FILE and its number behind it. */
const HChar *path_for_process(void);

/* A path from the root on, of one that is meant from the folder in which the program began. */
const HChar *absolute(const HChar *path);

/* The same path from that folder on, if it is below it. */
const HChar *from_folder(const HChar *path);

/* Told before the program asks to become another one, of which the path is known or NULL, and where the system refuses that. */
void before_execution(const HChar *path);
void execution_failed(void);
Bool becomes_another(void); /* between these */

/* Told after a fork, in the parent and in the child. */
void in_parent(ThreadId thread);
void in_child(ThreadId thread);

#endif
