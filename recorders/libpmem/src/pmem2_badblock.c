#include "pmem2.h"

#include <stdlib.h>

struct pmem2_badblock_context {
    const struct pmem2_source *source;
};

int pmem2_badblock_context_new(struct pmem2_badblock_context **context, const struct pmem2_source *source) {
    *context = NULL;
    if (source->file < 0)
        return pmtrace_fail(PMEM2_E_SOURCE_TYPE_NOT_SUPPORTED, "an anonymous source has no blocks");
    int error = pmtrace_new((void **)context, sizeof **context);
    if (error == 0)
        (*context)->source = source;
    return error;
}

int pmem2_badblock_next(struct pmem2_badblock_context *context, struct pmem2_badblock *block) {
    (void)context, (void)block;
    return pmtrace_fail(PMEM2_E_NO_BAD_BLOCK_FOUND, "a recorded file has no bad blocks");
}

void pmem2_badblock_context_delete(struct pmem2_badblock_context **context) {
    free(*context);
    *context = NULL;
}

int pmem2_badblock_clear(struct pmem2_badblock_context *context, const struct pmem2_badblock *block) {
    (void)context;
    if (block->offset > INT64_MAX)
        return pmtrace_fail(PMEM2_E_OFFSET_OUT_OF_RANGE, "offset %zu is too great", block->offset);
    if (block->length > INT64_MAX)
        return pmtrace_fail(PMEM2_E_LENGTH_OUT_OF_RANGE, "length %zu is too great", block->length);
    return pmtrace_fail(PMEM2_E_NOSUPP, "a recorded file has no bad blocks");
}
