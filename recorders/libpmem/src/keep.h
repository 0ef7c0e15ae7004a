/* keep.h: files that are recorded stay, so that no other file gets their number. */
#ifndef PMTRACE_KEEP_H
#define PMTRACE_KEEP_H

/* Keeps the file that is mapped here, shared, until the program ends, also when it is removed and unmapped: the recorder knows a
 * file by its device and inode number, and the system gives the number of a file that is gone to a new one. It takes a mapping of
 * one page for each file; where there is none left, standard error says so. */
void pmtrace_keep_file(const void *start);

#endif /* PMTRACE_KEEP_H */
