/* Atomic operations of random programs, and values of 1 to 8 bytes. */
#ifndef TRUTH_ATOMICS_H
#define TRUTH_ATOMICS_H

#include "program.h"

/* What stands there, by one load. Others may be storing there by the recorder. */
uint64_t value_at(const unsigned char *from, uint64_t size);

/* Exchanges or compares; what it expects is the bytes of the data, or with a last number of 1 what stands there just before. */
void exchange(const operation *what, unsigned char *place, record *log);

void fetch(const operation *what, unsigned char *place, record *log);

#endif
