#include "decode.h"
#include "events.h"

enum { LONGEST = 15 };

/* The prefixes before an opcode. */
typedef struct {
    Bool operand_size, address_size, repeat, repeat_not, lock, thread_segment, other;
    UChar rex;
    UInt length;
} Prefixes;

static Prefixes read_prefixes(const UChar *bytes, UInt length) {
    Prefixes found = {0};
    for (; found.length < length; found.length++) {
        UChar byte = bytes[found.length];
        if (byte == 0x66)
            found.operand_size = True;
        else if (byte == 0xf3)
            found.repeat = True;
        else if (byte == 0xf2)
            found.repeat_not = True;
        else if (byte == 0xf0)
            found.lock = True;
        else if (byte == 0x64)
            found.thread_segment = True;
        else if (byte == 0x67)
            found.address_size = True;
        else if (byte == 0x65)
            found.other = True;
        else if (byte != 0x2e && byte != 0x36 && byte != 0x3e && byte != 0x26)
            break;
    }
    if (found.length < length && (bytes[found.length] & 0xf0) == 0x40)
        found.rex = bytes[found.length++];
    return found;
}

/* The address of an operand in memory, from the ModRM byte on; how many bytes it takes. */
static UInt read_operand(const UChar *bytes, UChar rex, Flush *flush) {
    UChar mode = bytes[0] >> 6, low = bytes[0] & 7;
    UInt length = 1;
    flush->base = low | (rex & 1 ? 8 : 0);
    flush->index = -1;
    if (low == 4) {
        UChar scale = bytes[length++];
        flush->shift = scale >> 6;
        flush->index = (scale >> 3 & 7) | (rex & 2 ? 8 : 0);
        if (flush->index == 4)
            flush->index = -1;
        flush->base = (scale & 7) == 5 && mode == 0 ? -1 : (scale & 7) | (rex & 1 ? 8 : 0);
    } else if (low == 5 && mode == 0)
        flush->base = -1;
    if (mode == 1)
        flush->displacement = (Char)bytes[length++];
    else if (mode == 2 || flush->base < 0) {
        flush->displacement = *(const Int *)(bytes + length);
        length += 4;
    }
    return length;
}

Bool decode_flush(Addr place, Flush *flush) {
    const UChar *bytes = (const UChar *)place;
    Prefixes prefixes = read_prefixes(bytes, LONGEST);
    const UChar *opcode = bytes + prefixes.length;
    if (prefixes.repeat || prefixes.repeat_not || prefixes.lock || prefixes.other || opcode[0] != 0x0f || opcode[1] != 0xae)
        return False;
    UChar modrm = opcode[2], extension = modrm >> 3 & 7;
    if (modrm >> 6 == 3 || !(extension == 7 || (extension == 6 && prefixes.operand_size)))
        return False;
    *flush = (Flush){.kind = extension == 6 ? CLWB : prefixes.operand_size ? CLFLUSHOPT : CLFLUSH};
    flush->length = (Int)(prefixes.length + 2 + read_operand(opcode + 2, prefixes.rex, flush));
    flush->thread_segment = prefixes.thread_segment;
    flush->half_address = prefixes.address_size;
    if (modrm >> 6 == 0 && (modrm & 7) == 5)
        flush->displacement += (Long)place + flush->length;
    return True;
}

FenceKind decode_fence(Addr place, UInt length) {
    const UChar *bytes = (const UChar *)place;
    Prefixes prefixes = read_prefixes(bytes, length);
    const UChar *opcode = bytes + prefixes.length;
    if (length != prefixes.length + 3 || opcode[0] != 0x0f || opcode[1] != 0xae || prefixes.operand_size)
        return NO_FENCE;
    return opcode[2] >= 0xf8 ? SFENCE : opcode[2] >= 0xf0 ? MFENCE : NO_FENCE;
}

/* movntps and movntpd, movntq and movntdq: as opcodes of the second table, also behind a VEX prefix; maskmovq and maskmovdqu. */
static StoreKind of_second_table(UChar opcode) {
    return opcode == 0x2b || opcode == 0xe7 ? STREAMED_STORE : opcode == 0xf7 ? MASKED_STORE : PLAIN_STORE;
}

StoreKind decode_store(Addr place, UInt length) {
    const UChar *bytes = (const UChar *)place;
    Prefixes prefixes = read_prefixes(bytes, length);
    const UChar *opcode = bytes + prefixes.length;
    UInt rest = length - prefixes.length;
    if (rest >= 1 && (prefixes.repeat || prefixes.repeat_not)) {
        Bool is_string = opcode[0] == 0xa4 || opcode[0] == 0xa5 || opcode[0] == 0xaa || opcode[0] == 0xab;
        return is_string ? STEP_STORE : PLAIN_STORE;
    }
    if (rest >= 2 && opcode[0] == 0x0f)
        return opcode[1] == 0xc3 ? STREAMED_STORE : of_second_table(opcode[1]);
    if (rest >= 3 && opcode[0] == 0xc5)
        return of_second_table(opcode[2]);
    if (rest >= 4 && opcode[0] == 0xc4 && (opcode[1] & 31) == 1)
        return of_second_table(opcode[3]);
    return PLAIN_STORE;
}

Bool is_string_copy(Addr place, UInt length) {
    const UChar *bytes = (const UChar *)place;
    UInt prefixes = read_prefixes(bytes, length).length;
    return prefixes < length && (bytes[prefixes] == 0xa4 || bytes[prefixes] == 0xa5);
}

const HChar *name_unknown(Addr place) {
    const UChar *bytes = (const UChar *)place;
    Prefixes prefixes = read_prefixes(bytes, LONGEST);
    const UChar *opcode = bytes + prefixes.length;
    if (opcode[0] == 0x62 && prefixes.length == 0)
        return "an AVX-512 instruction";
    if (prefixes.length == 0 && opcode[0] == 0xc5 && opcode[2] >= 0x41 && opcode[2] <= 0x4b)
        return "an AVX-512 instruction on mask registers";
    if (opcode[0] == 0xc5 && (opcode[2] == 0x90 || opcode[2] == 0x91 || opcode[2] == 0x92 || opcode[2] == 0x93 || opcode[2] == 0x98))
        return "an AVX-512 instruction on mask registers";
    if (opcode[0] == 0x0f && opcode[1] == 0x38 && opcode[2] == 0xf9)
        return "movdiri";
    if (opcode[0] == 0x0f && opcode[1] == 0x38 && opcode[2] == 0xf8 && prefixes.operand_size)
        return "movdir64b";
    if (opcode[0] == 0x0f && opcode[1] == 0x0b)
        return "ud2, which programs use to end themselves,";
    return "an instruction";
}
