/* Notes in which function a line stands. Answers the line. */
const char *pmtrace_in_(const char *line, const char *function);

int pmtrace_open_at(const char *label, const char *file, const void *base, size_t length, unsigned line_size);
int pmtrace_forget_at(const char *label, const void *start, size_t length);
int pmtrace_close_at(const char *label);
int pmtrace_watch_at(const char *label);
int pmtrace_start_at(const char *label);
int pmtrace_stop_at(const char *label);

/* Whether a trace is open and the range is all in its pools. */
bool pmtrace_records(const void *start, size_t length);

void pmtrace_store_at(const char *label, volatile void *place, const volatile void *value, size_t size);
void *pmtrace_memcpy_at(const char *label, void *to, const void *from, size_t length);
void *pmtrace_memmove_at(const char *label, void *to, const void *from, size_t length);
void *pmtrace_memset_at(const char *label, void *to, int byte, size_t length);
void *pmtrace_memcpy_nontemporal_at(const char *label, void *to, const void *from, size_t length);
void *pmtrace_memset_nontemporal_at(const char *label, void *to, int byte, size_t length);

/* These answer `before`, where they put what stood there. */
void *pmtrace_exchange_at(const char *label, volatile void *place, size_t size, const volatile void *value,
                          volatile void *before);
void *pmtrace_fetch_at(const char *label, pmtrace_fetch_kind kind, volatile void *place, size_t size, const volatile void *value,
                       volatile void *before);

bool pmtrace_compare_exchange_at(const char *label, volatile void *place, size_t size, volatile void *expected,
                                 const volatile void *value);
void pmtrace_flush_at(const char *label, pmtrace_flush_kind kind, const void *start, size_t length);
void pmtrace_fence_at(const char *label, pmtrace_fence_kind kind);
void pmtrace_persist_at(const char *label, const void *start, size_t length);
void pmtrace_is_persist_at(const char *label, const void *start, size_t length);
void pmtrace_is_ordered_before_at(const char *label, const void *first, size_t first_length, const void *second,
                                  size_t second_length);
