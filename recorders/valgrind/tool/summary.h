/* The last line on standard error: how much was recorded, what was not, and what to type next. */
#ifndef SUMMARY_H
#define SUMMARY_H

void print_summary(void);

/* Of a process that does not end the trace: what of it is not recorded, if anything. */
void print_summary_of_process(void);

/* Of a child that is not recorded: what it did to pools, if anything. */
void print_unrecorded(void);

#endif
