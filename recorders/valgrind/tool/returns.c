#include "returns.h"

enum { LINE_BYTES = 400, PIECE_BYTES = 1 << 14, MOST_KNOWN = 1 << 10, PATH_BYTES = 1 << 9 };

/* Reads the line of this number, from 1 on; without its end where it is long, and nothing where it is not there. */
static void read_line(Int file, ULong number, HChar line[LINE_BYTES]) {
    static HChar piece[PIECE_BYTES];
    ULong reached = 1;
    Int length = 0, got = 1, at;
    while (reached <= number && got > 0) {
        got = VG_(read)(file, piece, sizeof piece);
        for (at = 0; at < got && reached <= number; at++) {
            if (piece[at] == '\n')
                reached++;
            else if (reached == number && length < LINE_BYTES - 1)
                line[length++] = piece[at];
        }
    }
    line[length] = '\0';
}

static Bool is_of_name(HChar byte) {
    return ((byte | 32) >= 'a' && (byte | 32) <= 'z') || (byte >= '0' && byte <= '9') || byte == '_';
}

static Bool has_return(const HChar *line) {
    static const HChar word[] = "return";
    const HChar *found = line;
    while ((found = VG_(strstr)(found, word)) != NULL) {
        const HChar *end = found + sizeof word - 1;
        if ((found == line || !is_of_name(found[-1])) && !is_of_name(*end))
            return True;
        found = end;
    }
    return False;
}

static Bool read_return(const HChar *source) {
    HChar path[PATH_BYTES], line[LINE_BYTES];
    const HChar *colon = VG_(strrchr)(source, ':');
    SizeT length = colon == NULL ? 0 : (SizeT)(colon - source);
    Int file;
    if (length == 0 || length >= PATH_BYTES)
        return False;
    VG_(memcpy)(path, source, length);
    path[length] = '\0';
    file = VG_(fd_open)(path, VKI_O_RDONLY, 0);
    if (file < 0)
        return False;
    read_line(file, (ULong)VG_(strtoll10)(colon + 1, NULL), line);
    VG_(close)(file);
    return has_return(line);
}

Bool is_return(const HChar *source) {
    /* What was answered, by sums of the texts, whose last bit is the answer. */
    static ULong known[MOST_KNOWN];
    ULong sum = 1, *answer;
    const HChar *at;
    for (at = source; *at != '\0'; at++)
        sum = (sum ^ (UChar)*at) * 0x100000001B3ULL;
    answer = &known[(sum >> 1) % MOST_KNOWN];
    if (*answer >> 1 != sum >> 1)
        *answer = (sum & ~1ULL) | (read_return(source) ? 1 : 0);
    return (*answer & 1) != 0;
}
