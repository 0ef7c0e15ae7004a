#include "pmem2.h"

#include <stdlib.h>

int pmem2_config_new(struct pmem2_config **config) {
    int error = pmtrace_new((void **)config, sizeof **config);
    if (error != 0)
        return error;
    (*config)->granularity = -1;
    (*config)->protection = PMEM2_PROT_READ | PMEM2_PROT_WRITE;
    return 0;
}

int pmem2_config_delete(struct pmem2_config **config) {
    free(*config);
    *config = NULL;
    return 0;
}

int pmem2_config_set_required_store_granularity(struct pmem2_config *config, enum pmem2_granularity granularity) {
    int number = (int)granularity;
    if (number < PMEM2_GRANULARITY_BYTE || number > PMEM2_GRANULARITY_PAGE)
        return pmtrace_fail(PMEM2_E_GRANULARITY_NOT_SUPPORTED, "there is no granularity %d", number);
    config->granularity = number;
    return 0;
}

int pmem2_config_set_offset(struct pmem2_config *config, size_t offset) {
    if (offset > INT64_MAX)
        return pmtrace_fail(PMEM2_E_OFFSET_OUT_OF_RANGE, "offset %zu is too great", offset);
    config->offset = offset;
    return 0;
}

int pmem2_config_set_length(struct pmem2_config *config, size_t length) {
    config->length = length;
    return 0;
}

int pmem2_config_set_sharing(struct pmem2_config *config, enum pmem2_sharing_type sharing) {
    int number = (int)sharing;
    if (number != PMEM2_SHARED && number != PMEM2_PRIVATE)
        return pmtrace_fail(PMEM2_E_INVALID_SHARING_VALUE, "there is no sharing %d", number);
    config->sharing = sharing;
    return 0;
}

int pmem2_config_set_protection(struct pmem2_config *config, unsigned protection) {
    unsigned unknown = protection & ~(PMEM2_PROT_READ | PMEM2_PROT_WRITE | PMEM2_PROT_EXEC);
    if (unknown != 0)
        return pmtrace_fail(PMEM2_E_INVALID_PROT_FLAG, "there is no protection flag %#x", unknown);
    config->protection = protection;
    return 0;
}

int pmem2_config_set_vm_reservation(struct pmem2_config *config, struct pmem2_vm_reservation *reservation, size_t offset) {
    config->reservation = reservation;
    config->reservation_offset = offset;
    return 0;
}
