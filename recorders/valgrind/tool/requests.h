/* What the program says by client requests. */
#ifndef REQUESTS_H
#define REQUESTS_H

#include "core.h"

Bool take_request(ThreadId thread, UWord *words, UWord *answer);

#endif
