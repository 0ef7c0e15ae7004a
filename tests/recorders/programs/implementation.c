/* The one file of a program that has the recorder itself. */
#define PMTRACE_IMPLEMENTATION
#include "pmtrace.h"
