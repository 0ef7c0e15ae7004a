/* libpmem.h: the calls of libpmem 1.12, recorded for pmtrim. It stands in for libpmem's own header, and libpmem.a beside it for
 * libpmem's own library; ../README.md shows how. What a call does for the program is said by libpmem(7) and the pages that it
 * names. What a call is in the trace is said here. They are functions and nothing else: what can be done with libpmem's can be
 * done with these.
 *
 * A label in FILE.labels is the place of the call, as MODULE+0xOFFSET; ../lines makes source lines of them. */
#ifndef LIBPMEM_H
#define LIBPMEM_H 1

#include <sys/types.h>

#ifdef __cplusplus
extern "C" {
#endif

/* The version of the interface, for pmem_check_version. */
#define PMEM_MAJOR_VERSION 1
#define PMEM_MINOR_VERSION 1

/* The least part of a pool set, in bytes. */
#define PMEM_MIN_PART ((size_t)(1024 * 1024 * 2))

/* Flags of pmem_map_file. */
#define PMEM_FILE_CREATE (1 << 0)
#define PMEM_FILE_EXCL (1 << 1)
#define PMEM_FILE_SPARSE (1 << 2)
#define PMEM_FILE_TMPFILE (1 << 3)

/* Flags of pmem_memmove, pmem_memcpy and pmem_memset. */
#define PMEM_F_MEM_NODRAIN (1U << 0)
#define PMEM_F_MEM_NONTEMPORAL (1U << 1)
#define PMEM_F_MEM_TEMPORAL (1U << 2)
#define PMEM_F_MEM_WC (1U << 3)
#define PMEM_F_MEM_WB (1U << 4)
#define PMEM_F_MEM_NOFLUSH (1U << 5)
#define PMEM_F_MEM_VALID_FLAGS \
    (PMEM_F_MEM_NODRAIN | PMEM_F_MEM_NONTEMPORAL | PMEM_F_MEM_TEMPORAL | PMEM_F_MEM_WC | PMEM_F_MEM_WB | PMEM_F_MEM_NOFLUSH)

/* Maps a file, which is recorded from here on, plain stores too. The first mapping begins the trace, in the file that the
 * environment's PMTRACE_FILE names, or else in PATH.trace. Of a file that is mapped twice, or again, a byte has one address in
 * the trace. Answers NULL and errno where there is no mapping: EINVAL for a length that does not go with the flags, for flags
 * that there are not and for a device, and what open(2), ftruncate(2), posix_fallocate(3) and mmap(2) say. Where the mapping
 * can't be recorded standard error says so, and the program goes on. */
void *pmem_map_file(const char *path, size_t length, int flags, mode_t mode, size_t *mapped_length, int *is_pmem);

/* What was stored plainly is noted before the range is unmapped. The trace goes on until the program ends. */
int pmem_unmap(void *start, size_t length);

/* 1 where the whole range was mapped by pmem_map_file and is recorded, else 0; the environment's PMEM_IS_PMEM_FORCE decides
 * otherwise. */
int pmem_is_pmem(const void *start, size_t length);

/* clwb of each line of the range. */
void pmem_flush(const void *start, size_t length);
void pmem_deep_flush(const void *start, size_t length);

/* sfence. A deep drain of no byte is nothing, and answers 0. */
void pmem_drain(void);
int pmem_deep_drain(const void *start, size_t length);

/* clwb of each line of the range, and sfence. */
void pmem_persist(const void *start, size_t length);
int pmem_deep_persist(const void *start, size_t length);

/* In the trace clwb of each line of the pages that the range is in, and sfence, with msync(2) done between. Nothing, where the
 * range is not mapped, and no sfence, where msync(2) can't write. */
int pmem_msync(const void *start, size_t length);

/* 0: the caches are flushed by hand, and that there is no other drain than a fence. */
int pmem_has_auto_flush(void);
int pmem_has_hw_drain(void);

/* The stores; then a flush of their lines, unless PMEM_F_MEM_NOFLUSH is given; then sfence, unless that or PMEM_F_MEM_NODRAIN
 * is. The flush is clwb. It is clflushopt for what libpmem does by non-temporal stores: 256 bytes and more, or any length with
 * PMEM_F_MEM_NONTEMPORAL or PMEM_F_MEM_WC, unless PMEM_F_MEM_TEMPORAL or PMEM_F_MEM_WB is given. Such a copy and its flush
 * have no event of another thread between them. */
void *pmem_memmove(void *to, const void *from, size_t length, unsigned flags);
void *pmem_memcpy(void *to, const void *from, size_t length, unsigned flags);
void *pmem_memset(void *to, int byte, size_t length, unsigned flags);

/* The same without flags, and with PMEM_F_MEM_NODRAIN. */
void *pmem_memmove_persist(void *to, const void *from, size_t length);
void *pmem_memcpy_persist(void *to, const void *from, size_t length);
void *pmem_memset_persist(void *to, int byte, size_t length);
void *pmem_memmove_nodrain(void *to, const void *from, size_t length);
void *pmem_memcpy_nodrain(void *to, const void *from, size_t length);
void *pmem_memset_nodrain(void *to, int byte, size_t length);

/* NULL where this library has the interface of the version, else a text that says why not. */
const char *pmem_check_version(unsigned major_required, unsigned minor_required);

/* Why the thread's last call that failed did; an empty text where none did. */
const char *pmem_errormsg(void);

#ifdef __cplusplus
}
#endif

#endif /* LIBPMEM_H */
