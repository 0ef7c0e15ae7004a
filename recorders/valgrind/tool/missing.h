/* What was seen and is not in the trace: for the last line, and for good in the file FILE.missing beside the trace. */
#ifndef MISSING_H
#define MISSING_H

#include "core.h"

/* What is missing by it: bytes that may have been stored, or made safe; fences alone; or nothing by which a verdict could change. */
typedef enum { BYTES, FENCES, OTHERS } MissingKind;

typedef struct {
    ULong count;
    MissingKind kind;
    const HChar *what;
    const HChar *more; /* behind the count; NULL where the text says all */
} Missing;

enum { MOST_MISSING = 32 };

/* All that came at least once; how many. */
Int find_missing(Missing all[MOST_MISSING]);

/* The file of an earlier trace of that name goes; and lines for this process are added to it. */
void forget_missing(void);
void write_missing(const Missing *all, Int count);

#endif
