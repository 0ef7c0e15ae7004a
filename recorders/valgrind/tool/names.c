#include "names.h"
#include "frames.h"

enum { PLAIN_BYTES = 1000 };

static const HChar unnamed[] = "(anonymous namespace)::";

/* The type before the name of a function that a template made ends at the last space that is in no brackets. */
static SizeT name_begin(const HChar *name, SizeT end) {
    SizeT at, begin = 0;
    Int depth = 0;
    for (at = 0; at < end; at++) {
        depth += name[at] == '<' || name[at] == '(' || name[at] == '{';
        depth -= name[at] == '>' || name[at] == ')' || name[at] == '}';
        if (name[at] == ' ' && depth == 0)
            begin = at + 1;
    }
    return begin;
}

/* Where the arguments of a template begin that end the name; its end if it has none. */
static SizeT without_template(const HChar *name, SizeT end) {
    SizeT at = end;
    Int depth = 0;
    if (end == 0 || name[end - 1] != '>')
        return end;
    do {
        at--;
        depth += name[at] == '>';
        depth -= name[at] == '<';
    } while (at > 0 && depth > 0);
    return at;
}

/* The name without its parameters, the type before it, and, where the wanted name has none, unnamed namespaces and the arguments of a
 * template at the end. */
static void spell_plainly(const HChar *name, const HChar *wanted, HChar *plain) {
    SizeT end = name_length(name, VG_(strlen)(name)), at = 0, length = 0;
    SizeT wanted_end = VG_(strlen)(wanted);
    Bool with_unnamed = VG_(strstr)(wanted, unnamed) != NULL, with_template = without_template(wanted, wanted_end) < wanted_end;
    if (VG_(strstr)(name, "operator") == NULL) {
        at = name_begin(name, end);
        end = with_template ? end : without_template(name, end);
    }
    while (at < end && length < PLAIN_BYTES - 1)
        if (!with_unnamed && VG_(strncmp)(name + at, unnamed, sizeof unnamed - 1) == 0)
            at += sizeof unnamed - 1;
        else
            plain[length++] = name[at++];
    plain[length] = '\0';
}

static void keep(const HChar **names, Int *count, const HChar *name) {
    Int at;
    for (at = 0; at < *count; at++)
        if (VG_(strcmp)(names[at], name) == 0)
            return;
    if (*count < MOST_SIMILAR)
        names[(*count)++] = VG_(strdup)("names.name", name);
}

/* The last part of a name, behind its namespaces and classes. */
static const HChar *last_part(const HChar *plain) {
    const HChar *colon = VG_(strrchr)(plain, ':');
    return colon == NULL ? plain : colon + 1;
}

/* Whether the last part of a name is that of the wanted one, or that of a copy which the compiler made, as save.constprop.0. */
static Bool is_similar(const HChar *wanted, const HChar *plain) {
    const HChar *part = last_part(wanted), *other = last_part(plain);
    SizeT length = VG_(strlen)(part);
    return VG_(strncmp)(part, other, length) == 0 && (other[length] == '\0' || other[length] == '.');
}

Bool is_meant(WantedName *wanted, const HChar *name) {
    HChar plain[PLAIN_BYTES], wanted_plain[PLAIN_BYTES];
    Bool meant = VG_(strcmp)(name, wanted->wanted) == 0;
    if (!meant) {
        spell_plainly(name, wanted->wanted, plain);
        meant = VG_(strcmp)(plain, wanted->wanted) == 0;
    }
    if (!meant) {
        spell_plainly(wanted->wanted, wanted->wanted, wanted_plain);
        if (!is_similar(wanted_plain, plain))
            return False;
    }
    if (meant)
        keep(wanted->called, &wanted->called_count, name);
    else
        keep(wanted->similar, &wanted->similar_count, name);
    return meant;
}
