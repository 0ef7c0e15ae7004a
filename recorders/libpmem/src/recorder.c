/* The recorder itself, of which the library has the one copy. */
#define PMTRACE_IMPLEMENTATION
#include "pmtrace.h"
