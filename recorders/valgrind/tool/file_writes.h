/* Writes to a pool's file by its descriptor: they stand in the trace as stores, read back from the file. */
#ifndef FILE_WRITES_H
#define FILE_WRITES_H

#include "core.h"

void before_file_call(ThreadId thread, UInt call, const UWord *arguments);
void after_file_call(ThreadId thread, UInt call, const UWord *arguments, ULong result);

/* The system stored to a mapping, as read does into a buffer there. */
void note_system_store(ThreadId thread, Addr start, SizeT length);

#endif
