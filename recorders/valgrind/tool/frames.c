#include "frames.h"

static Bool begins_with_one(const HChar *path, const HChar *const *beginnings, SizeT count) {
    SizeT at;
    for (at = 0; at < count; at++)
        if (VG_(strncmp)(path, beginnings[at], VG_(strlen)(beginnings[at])) == 0)
            return True;
    return False;
}

/* Whether a source file belongs to the system or the compiler, as the header that has memcpy or _mm_clwb, and those of C++ and Rust. */
static Bool is_of_system(const HChar *path) {
    static const HChar *const folders[] = {"/usr/include/", "/rustc/", "/usr/src/rustc"};
    return begins_with_one(path, folders, sizeof folders / sizeof *folders) || VG_(strstr)(path, "/lib/gcc/") != NULL ||
           VG_(strstr)(path, "/lib/clang/") != NULL || VG_(strstr)(path, "/lib/llvm") != NULL ||
           VG_(strstr)(path, "/include/c++/") != NULL || VG_(strstr)(path, "/lib/rustlib/") != NULL;
}

Bool is_in_object(Addr address) {
    const HChar *path;
    return VG_(get_objname)(VG_(current_DiEpoch)(), address, &path);
}

Bool is_in_c_library(Addr address) {
    static const HChar *const names[] = {"libc.so", "libc-", "libpthread", "ld-linux", "libm.so", "vgpreload"};
    const HChar *path, *slash;
    if (!VG_(get_objname)(VG_(current_DiEpoch)(), address, &path))
        return False;
    slash = VG_(strrchr)(path, '/');
    return begins_with_one(slash == NULL ? path : slash + 1, names, sizeof names / sizeof *names);
}

/* Whether an address is in a library of the system, or where PMDK is installed once it is built. */
static Bool is_in_library(Addr address) {
    static const HChar *const folders[] = {"/lib/", "/lib64/", "/usr/lib/", "/usr/lib64/", "/usr/local/lib/"};
    const HChar *path;
    return is_in_c_library(address) || (VG_(get_objname)(VG_(current_DiEpoch)(), address, &path) &&
                                        begins_with_one(path, folders, sizeof folders / sizeof *folders));
}

static void copy(HChar *to, const HChar *from, SizeT room, SizeT length) {
    if (length > room - 1)
        length = room - 1;
    VG_(memcpy)(to, from, length);
    to[length] = '\0';
}

/* Whether a text may stand behind a function's parameters, as ` const` or ` [clone .cold]`. Where a name goes on, its last brackets are
 * others: those of a template's argument, a lambda, an unnamed namespace, or a function that another one is in. */
static Bool follows_parameters(const HChar *text, SizeT length) {
    SizeT at;
    for (at = 0; at < length; at++)
        if (text[at] == '>' || text[at] == '}' || text[at] == ':')
            return False;
    return length == 0 || text[0] == ' ';
}

/* Whether the brackets from `at` on are the name of `operator()` itself. */
static Bool is_call_operator(const HChar *name, SizeT at) {
    static const HChar word[] = "operator";
    const SizeT length = sizeof word - 1;
    if (at < length || name[at + 1] != ')' || VG_(strncmp)(name + at - length, word, length) != 0)
        return False;
    return at == length || name[at - length - 1] == ':' || name[at - length - 1] == ' ';
}

SizeT name_length(const HChar *name, SizeT length) {
    SizeT end = length, at;
    Int depth = 0;
    while (end > 0 && name[end - 1] != ')')
        end--;
    if (end == 0 || !follows_parameters(name + end, length - end))
        return length;
    at = end;
    do {
        at--;
        depth += name[at] == ')';
        depth -= name[at] == '(';
    } while (at > 0 && depth > 0);
    return at == 0 || is_call_operator(name, at) ? length : at;
}

/* Takes `0x1234: function (path:line)` apart, as the core describes an address. */
static Bool read_frame(const HChar *described, Frame *frame) {
    const HChar *function = VG_(strstr)(described, ": ");
    const HChar *open = VG_(strrchr)(described, '(');
    const HChar *slash, *file;
    if (function == NULL || open == NULL || open < function + 3)
        return False;
    function += 2;
    file = open + 1;
    SizeT length = VG_(strlen)(file);
    if (length < 2 || file[length - 1] != ')' || VG_(strrchr)(file, ':') == NULL || is_of_system(file))
        return False;
    copy(frame->source, file, SOURCE_BYTES, length - 1);
    slash = VG_(strrchr)(file, '/');
    if (slash != NULL) {
        length -= (SizeT)(slash + 1 - file);
        file = slash + 1;
    }
    copy(frame->place, file, PLACE_BYTES, length - 1);
    copy(frame->function, function, FUNCTION_BYTES, name_length(function, (SizeT)(open - 1 - function)));
    return True;
}

Int frames_at(Addr address, Frame frames[MOST_INLINED]) {
    DiEpoch epoch = VG_(current_DiEpoch)();
    InlIPCursor *cursor;
    Int count = 0;
    if (is_in_library(address))
        return 0;
    cursor = VG_(new_IIPC)(epoch, address);
    do {
        if (read_frame(VG_(describe_IP)(epoch, address, cursor), &frames[count]))
            frames[count++].is_inlined = True;
    } while (VG_(next_IIPC)(cursor) && count < MOST_INLINED);
    VG_(delete_IIPC)(cursor);
    if (count > 0)
        frames[count - 1].is_inlined = False;
    return count;
}

const HChar *symbol_at(Addr address) {
    static HChar text[FUNCTION_BYTES + PLACE_BYTES];
    DiEpoch epoch = VG_(current_DiEpoch)();
    const HChar *name;
    if (VG_(get_fnname)(epoch, address, &name))
        copy(text, name, FUNCTION_BYTES, name_length(name, VG_(strlen)(name)));
    else if (VG_(get_objname)(epoch, address, &name)) {
        const HChar *slash = VG_(strrchr)(name, '/');
        NSegment const *segment = VG_(am_find_nsegment)(address);
        ULong offset = segment == NULL ? 0 : (ULong)segment->offset + (address - segment->start);
        VG_(snprintf)(text, sizeof text, "%s+0x%llx", slash == NULL ? name : slash + 1, offset);
    } else
        VG_(snprintf)(text, sizeof text, "0x%lx", address);
    return text;
}
