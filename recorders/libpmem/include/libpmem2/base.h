/* libpmem2/base.h: the calls of libpmem2 1.12, recorded for pmtrim. It stands in for libpmem2's own header, and libpmem2.a for
 * libpmem2's own library; ../../README.md shows how. What a call does for the program, and its errors, are said by libpmem2(7)
 * and the pages that it names. What a call is in the trace, and where it differs, is said here. They are functions and nothing
 * else.
 *
 * A shared mapping of a file is recorded as persistent memory, whose granularity is the cache line. A private or anonymous
 * mapping is no persistent memory: nothing of it is recorded, which standard error says once. */
#ifndef LIBPMEM2_BASE_H
#define LIBPMEM2_BASE_H 1

#include <stddef.h>
#include <stdint.h>

#ifdef __cplusplus
extern "C" {
#endif

#define PMEM2_E_UNKNOWN (-100000)
#define PMEM2_E_NOSUPP (-100001)
#define PMEM2_E_FILE_HANDLE_NOT_SET (-100003)
#define PMEM2_E_INVALID_FILE_HANDLE (-100004)
#define PMEM2_E_INVALID_FILE_TYPE (-100005)
#define PMEM2_E_MAP_RANGE (-100006)
#define PMEM2_E_MAPPING_EXISTS (-100007)
#define PMEM2_E_GRANULARITY_NOT_SET (-100008)
#define PMEM2_E_GRANULARITY_NOT_SUPPORTED (-100009)
#define PMEM2_E_OFFSET_OUT_OF_RANGE (-100010)
#define PMEM2_E_OFFSET_UNALIGNED (-100011)
#define PMEM2_E_INVALID_ALIGNMENT_FORMAT (-100012)
#define PMEM2_E_INVALID_ALIGNMENT_VALUE (-100013)
#define PMEM2_E_INVALID_SIZE_FORMAT (-100014)
#define PMEM2_E_LENGTH_UNALIGNED (-100015)
#define PMEM2_E_MAPPING_NOT_FOUND (-100016)
#define PMEM2_E_BUFFER_TOO_SMALL (-100017)
#define PMEM2_E_SOURCE_EMPTY (-100018)
#define PMEM2_E_INVALID_SHARING_VALUE (-100019)
#define PMEM2_E_SRC_DEVDAX_PRIVATE (-100020)
#define PMEM2_E_INVALID_ADDRESS_REQUEST_TYPE (-100021)
#define PMEM2_E_ADDRESS_UNALIGNED (-100022)
#define PMEM2_E_ADDRESS_NULL (-100023)
#define PMEM2_E_DEEP_FLUSH_RANGE (-100024)
#define PMEM2_E_INVALID_REGION_FORMAT (-100025)
#define PMEM2_E_DAX_REGION_NOT_FOUND (-100026)
#define PMEM2_E_INVALID_DEV_FORMAT (-100027)
#define PMEM2_E_CANNOT_READ_BOUNDS (-100028)
#define PMEM2_E_NO_BAD_BLOCK_FOUND (-100029)
#define PMEM2_E_LENGTH_OUT_OF_RANGE (-100030)
#define PMEM2_E_INVALID_PROT_FLAG (-100031)
#define PMEM2_E_NO_ACCESS (-100032)
#define PMEM2_E_VM_RESERVATION_NOT_EMPTY (-100033)
#define PMEM2_E_MAP_EXISTS (-100034)
#define PMEM2_E_FILE_DESCRIPTOR_NOT_SET (-100035)
#define PMEM2_E_SOURCE_TYPE_NOT_SUPPORTED (-100036)
#define PMEM2_E_IO_FAIL (-100037)

struct pmem2_badblock_context;
struct pmem2_config;
struct pmem2_map;
struct pmem2_source;
struct pmem2_vm_reservation;

/* Sources. pmem2_source_from_fd takes regular files; for a device it answers PMEM2_E_INVALID_FILE_TYPE. The file may be closed
 * once it is mapped. What pmem2_source_pwrite_mcsafe writes to a mapped file is noticed as plain stores. */
int pmem2_source_from_fd(struct pmem2_source **source, int file);
int pmem2_source_from_anon(struct pmem2_source **source, size_t size);
int pmem2_source_get_fd(const struct pmem2_source *source, int *file);
int pmem2_source_size(const struct pmem2_source *source, size_t *size);
int pmem2_source_alignment(const struct pmem2_source *source, size_t *alignment);
int pmem2_source_delete(struct pmem2_source **source);
int pmem2_source_pread_mcsafe(struct pmem2_source *source, void *buffer, size_t size, size_t offset);
int pmem2_source_pwrite_mcsafe(struct pmem2_source *source, void *buffer, size_t size, size_t offset);

/* Reservations of addresses. */
int pmem2_vm_reservation_new(struct pmem2_vm_reservation **reservation, void *address, size_t size);
int pmem2_vm_reservation_delete(struct pmem2_vm_reservation **reservation);
int pmem2_vm_reservation_extend(struct pmem2_vm_reservation *reservation, size_t size);
int pmem2_vm_reservation_shrink(struct pmem2_vm_reservation *reservation, size_t offset, size_t size);
void *pmem2_vm_reservation_get_address(struct pmem2_vm_reservation *reservation);
size_t pmem2_vm_reservation_get_size(struct pmem2_vm_reservation *reservation);
int pmem2_vm_reservation_map_find(struct pmem2_vm_reservation *reservation, size_t offset, size_t length, struct pmem2_map **map);
int pmem2_vm_reservation_map_find_prev(struct pmem2_vm_reservation *reservation, struct pmem2_map *map,
                                       struct pmem2_map **previous);
int pmem2_vm_reservation_map_find_next(struct pmem2_vm_reservation *reservation, struct pmem2_map *map, struct pmem2_map **next);
int pmem2_vm_reservation_map_find_first(struct pmem2_vm_reservation *reservation, struct pmem2_map **map);
int pmem2_vm_reservation_map_find_last(struct pmem2_vm_reservation *reservation, struct pmem2_map **map);

/* Configurations. */
enum pmem2_granularity { PMEM2_GRANULARITY_BYTE, PMEM2_GRANULARITY_CACHE_LINE, PMEM2_GRANULARITY_PAGE };
enum pmem2_sharing_type { PMEM2_SHARED, PMEM2_PRIVATE };

#define PMEM2_PROT_EXEC (1U << 29)
#define PMEM2_PROT_READ (1U << 30)
#define PMEM2_PROT_WRITE (1U << 31)
#define PMEM2_PROT_NONE 0

int pmem2_config_new(struct pmem2_config **config);
int pmem2_config_delete(struct pmem2_config **config);
int pmem2_config_set_required_store_granularity(struct pmem2_config *config, enum pmem2_granularity granularity);
int pmem2_config_set_offset(struct pmem2_config *config, size_t offset);
int pmem2_config_set_length(struct pmem2_config *config, size_t length);
int pmem2_config_set_sharing(struct pmem2_config *config, enum pmem2_sharing_type sharing);
int pmem2_config_set_protection(struct pmem2_config *config, unsigned protection);
int pmem2_config_set_vm_reservation(struct pmem2_config *config, struct pmem2_vm_reservation *reservation, size_t offset);

/* Mappings. The first that is recorded begins the trace, in the file that the environment's PMTRACE_FILE names, or else in
 * FILE.trace beside the mapped file. pmem2_map_delete notes what was stored plainly, before the range is unmapped; so it does
 * for a mapping of the program's own, which pmem2_map_from_existing began to record. */
int pmem2_map_new(struct pmem2_map **map, const struct pmem2_config *config, const struct pmem2_source *source);
int pmem2_map_from_existing(struct pmem2_map **map, const struct pmem2_source *source, void *address, size_t length,
                            enum pmem2_granularity granularity);
int pmem2_map_delete(struct pmem2_map **map);
void *pmem2_map_get_address(struct pmem2_map *map);
size_t pmem2_map_get_size(struct pmem2_map *map);
enum pmem2_granularity pmem2_map_get_store_granularity(struct pmem2_map *map);

/* The functions of a mapping. In the trace a flush is clwb of each line of the range, a drain sfence, and a persist both. A
 * copy is its stores, a flush and a drain, as in libpmem.h. With the granularity of pages a flush or a persist is msync(2), in
 * the trace clwb of each line of the pages and sfence, and a drain is nothing. With that of bytes, which a private or
 * anonymous mapping has, there is no flush. */
typedef void (*pmem2_persist_fn)(const void *start, size_t length);
typedef void (*pmem2_flush_fn)(const void *start, size_t length);
typedef void (*pmem2_drain_fn)(void);
typedef void *(*pmem2_memmove_fn)(void *to, const void *from, size_t length, unsigned flags);
typedef void *(*pmem2_memcpy_fn)(void *to, const void *from, size_t length, unsigned flags);
typedef void *(*pmem2_memset_fn)(void *to, int byte, size_t length, unsigned flags);

#define PMEM2_F_MEM_NODRAIN (1U << 0)
#define PMEM2_F_MEM_NONTEMPORAL (1U << 1)
#define PMEM2_F_MEM_TEMPORAL (1U << 2)
#define PMEM2_F_MEM_WC (1U << 3)
#define PMEM2_F_MEM_WB (1U << 4)
#define PMEM2_F_MEM_NOFLUSH (1U << 5)
#define PMEM2_F_MEM_VALID_FLAGS \
    (PMEM2_F_MEM_NODRAIN | PMEM2_F_MEM_NONTEMPORAL | PMEM2_F_MEM_TEMPORAL | PMEM2_F_MEM_WC | PMEM2_F_MEM_WB | PMEM2_F_MEM_NOFLUSH)

pmem2_persist_fn pmem2_get_persist_fn(struct pmem2_map *map);
pmem2_flush_fn pmem2_get_flush_fn(struct pmem2_map *map);
pmem2_drain_fn pmem2_get_drain_fn(struct pmem2_map *map);
pmem2_memmove_fn pmem2_get_memmove_fn(struct pmem2_map *map);
pmem2_memcpy_fn pmem2_get_memcpy_fn(struct pmem2_map *map);
pmem2_memset_fn pmem2_get_memset_fn(struct pmem2_map *map);

/* clwb of each line of the range, and sfence. */
int pmem2_deep_flush(struct pmem2_map *map, void *start, size_t length);

/* What the hardware tells. There is none: the device, its count of unsafe shutdowns and its node answer PMEM2_E_NOSUPP, and a
 * context of bad blocks has none. */
int pmem2_source_device_id(const struct pmem2_source *source, char *id, size_t *length);
int pmem2_source_device_usc(const struct pmem2_source *source, uint64_t *count);
int pmem2_source_numa_node(const struct pmem2_source *source, int *node);

struct pmem2_badblock {
    size_t offset;
    size_t length;
};

int pmem2_badblock_context_new(struct pmem2_badblock_context **context, const struct pmem2_source *source);
int pmem2_badblock_next(struct pmem2_badblock_context *context, struct pmem2_badblock *block);
void pmem2_badblock_context_delete(struct pmem2_badblock_context **context);
int pmem2_badblock_clear(struct pmem2_badblock_context *context, const struct pmem2_badblock *block);

/* Why the thread's last call that failed did; the errno(3) for an error's number; and the text on standard error. */
const char *pmem2_errormsg(void);
int pmem2_err_to_errno(int error);
void pmem2_perror(const char *format, ...) __attribute__((__format__(__printf__, 1, 2)));

#ifdef __cplusplus
}
#endif

#endif /* LIBPMEM2_BASE_H */
