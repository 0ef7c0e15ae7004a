/* where.h: labels of the places that call the library. */
#ifndef PMTRACE_WHERE_H
#define PMTRACE_WHERE_H

/* The label of the call that returns to this address: MODULE+0xOFFSET, the file of the program or of a shared library, and the
 * address in it of the call's last byte, as addr2line(1) takes it. Of one address it is always the same text, which is never
 * freed. Any thread may ask. Nothing is allocated: there is room for some ten thousand places, and behind it all are "?". */
const char *pmtrace_where(const void *return_address);

/* The label of the call of the function that says this; that function must not be inlined. */
#define PMTRACE_CALLER pmtrace_where(__builtin_return_address(0))

#endif /* PMTRACE_WHERE_H */
