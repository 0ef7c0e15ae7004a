"""Traces in the letters of acts.py, each with what is told of it first: the verdict, and the entries in order. Written
by hand. An entry is its weight and its subject; of failed assertions the first event, of a hint the kind; and its sites
or path.
"""
THRICE = "{0} {0} {0}".format

ENTRIES = {
    # The verdict
    "nothing is stored": ("f0 |", "nothing:"),
    "saved, no claim": ("s0 f0 |", "ok_so_far:"),
    "saved, a claim": ("s0 f0 | p0", "ok:"),
    "a claim fails": ("s0 p0 f0 |", "fail: fail failure 2"),
    "two causes fail": ("s0 s1 p0 p1 f1 p1@q f0 |", "fail: fail failure 3; fail failure 4; fail failure 6"),
    "a store is lost": ("s0 f0 | s0", "lost: lost stores s0"),
    "fenced by another thread": ("s0 f0 t1 |", "lost: lost stores s0"),
    "saved late": ("s0 | | f0 |", "check: check stores s0"),
    # Scratch
    "stored again, in a line that nothing speaks of": ("s0 s0 s1 f1 |", "probably_ok: meant stores s0"),
    "stored once": ("s0 s1 f1 |", "lost: lost stores s0"),
    "stored at two addresses": ("s0@n s0.8@n s1 f1 |", "lost: lost stores n"),
    "its line was flushed before": ("f0 | s0 s0 s1 f1 |", "probably_ok: meant stores s0"),
    "its line is flushed": ("s0 s0 s1 f1 | f0", "lost: lost stores s0"),
    "its line is flushed by clflush, after another lost store": ("s1@n F0 s0 s0 |", "lost: lost stores s0 n"),
    "a claim speaks of its line": ("s0 s0 p0.8 s1 f1 |", "lost: lost stores s0"),
    "a second range does": ("s0 s0 s1 f1 | o1>0.8", "lost: lost stores s0"),
    "a claim that fails does": ("s0 s0 s1 p0 f1 |", "fail: fail failure 4; lost stores s0"),
    "the site saves another store": ("s1@n f1 | s0@n s0@n", "lost: lost stores n"),
    "stored once beside it": ("s0.8@n s0 s0 s1 f1 |", "probably_ok: meant stores s0 n"),
    "once in another line": ("s2@n s0 s0 s1 f1 |", "lost: lost stores n; meant stores s0"),
    "scratch beside a late store": ("s0 s0 s1 | | f1 |", "check: check stores s1; meant stores s0"),
    # Claimed
    "late, and claimed": ("s0 | | f0 | p0", "ok: meant stores s0"),
    "claimed as the first range": ("s0 | | f0 | s1 f1 | o0>1", "ok: meant stores s0"),
    "the second range": ("s1 f1 | s0 | | f0 | o1>0", "check: check stores s0"),
    "by a claim that fails": ("s0 | | p0 f0 |", "fail: fail failure 4; check stores s0"),
    "one of two is claimed": ("s0 | | s0.8@s0 | | f0 | p0", "check: check stores s0"),
    "written over before": ("s0 | | s0@t f0 | p0", "check: check stores s0"),
    "lost, though an order that is none claims it": ("s0 o0>1", "lost: lost stores s0"),
    # Signs
    "late, stored after its flush": ("s0 f0 s0.8@s | | f0 |", "suspect: suspect stores s"),
    "in time, stored after its flush": ("s0 f0 s0.8@s | f0 |", "check: check hint stored_after_flush s"),
    "of another site": ("s0 f0 s0.8@s | f0 | s1 | | f1 |", "check: check stores s1; check hint stored_after_flush s"),
    "a word in two lines is none": ("s0.60x4@w s1x4@w F0 | | f1 |", "check: check stores w"),
    "one of another site": ("s0.60x4@w s1x4@w f0 f1 | s2 | | f2 |", "check: check stores s2"),
    "beside one": (
        "s0.60x4@w s1x4@w f0 f1 s0.8@w | | f0 |",
        "suspect: suspect stores w",
    ),
    "a flush one line short": ("s0.56@r s1@r f0 | | f1 |", "suspect: suspect stores r"),
    "short only in a later call": (
        "s1@r | | f1 | s0.56@r s1@r f0 | | f1 |",
        "check: check stores r; check hint one_line_short f0",
    ),
    "short of another line": (
        "s5@r s0.56@r s1@r f0 | | f1 f5 |",
        "check: check stores r; check hint one_line_short f0",
    ),
    "claimed, with a sign": ("s0 f0 s0.8@s | | f0 | p0.8", "suspect: suspect stores s"),
    "lost, with a sign": ("s0 f0 s0.8@s |", "lost: lost stores s"),
    # Contrast
    "only by one caller": ("a: s0 f0 | s0 f0 | b: s0 | | f0 |", "suspect: suspect stores s0"),
    "half of the stores": ("a: s0 f0 | b: s0 | | f0 |", "check: check stores s0"),
    "by a caller that saves others": ("a: s0 f0 | s0 f0 | s0 | | f0 |", "check: check stores s0"),
    "a caller that saves others at another site": (
        "a: s0 f0 | s0 f0 | b: s0 | | f0 | s1 f1 | s1 | | f1 |",
        "suspect: suspect stores s0; check stores s1",
    ),
    "lost by one caller": ("a: s0 f0 | s0 f0 | b: s1@s0", "lost: lost stores s0"),
    # Together
    "in the same calls": ("s0 s1 | | f0 f1 |", "check: check stores s0 s1"),
    "one loses, the other delays": ("s0 s1 | | f1 |", "lost: lost stores s0; check stores s1"),
    "no fence comes any more": ("s0 s1", "lost: lost stores s0 s1"),
    "nor one of another thread": ("s0 t1 s1", "lost: lost stores s0; lost stores s1"),
    "a later first call": ("s0@x | s2@x s1@y | | f0 f1 f2 |", "check: check stores x; check stores y"),
    "a later last call": ("s0@x s1@y | s2@x | | f0 f1 f2 |", "check: check stores x y"),
    "one is meant": ("s0 s1 | | f0 f1 | p0", "check: check stores s1; meant stores s0"),
    "one has a sign": ("s0 f0 s0.8@s s1 | | f0 f1 |", "suspect: suspect stores s s1"),
    "only the second one has": ("s1 s0 f0 s0.8@s | | f0 f1 |", "suspect: suspect stores s1 s"),
    "the first site first, not most sites": (
        "s0 | | f0 | s1 s2 | | f1 f2 |",
        "check: check stores s0; check stores s1 s2",
    ),
    # Hints
    "open at a store, three times": (THRICE("s0 f0 s1 f1 |"), "check: check hint open_at_store f0"),
    "twice": ("s0 f0 s1 f1 | s0 f0 s1 f1 |", "ok_so_far:"),
    "on one path": ("a: s0 f0 | b: " + THRICE("s0 f0 s1 f1 |"), "check: check hint open_at_store f0 < b"),
    "most others come with nothing open": (
        f"{THRICE('s1 f1 |')} s1 f1 | {THRICE('s0 f0 s1 f1 |')}",
        "suspect: suspect hint open_at_store f0",
    ),
    "another function claims its own field of the line": (
        f"{THRICE('s1 f1 |')} s1 f1 | {THRICE('s0 f0 s1 f1 |')} s0.8@g f0@h | p0.8@g",
        "suspect: suspect hint open_at_store f0",
    ),
    "it claims what the last one flushes": (
        f"{THRICE('s1 f1 |')} s1 f1 | {THRICE('s0 f0 s1 f1 |')} s0.8@g f0@h | p0@g",
        "ok:",
    ),
    "half of all do": (f"{THRICE('s1 f1 |')} {THRICE('s0 f0 s1 f1 |')}", "check: check hint open_at_store f0"),
    "at another address": (
        f"{THRICE('s1.8@s1 f1 |')} s1.8@s1 f1 | {THRICE('s0 f0 s1 f1 |')}",
        "check: check hint open_at_store f0",
    ),
    "from another site": (
        f"{THRICE('s1@n f1 |')} s1@n f1 | {THRICE('s0 f0 s1 f1 |')}",
        "check: check hint open_at_store f0",
    ),
    "on one path, and most others do": (
        f"a: s0 f0 | {THRICE('s1 f1 |')} s1 f1 | b: {THRICE('s0 f0 s1 f1 |')}",
        "suspect: suspect hint open_at_store f0 < b",
    ),
    "twice, and most others do": (f"{THRICE('s1 f1 |')} s0 f0 s1 f1 | s0 f0 s1 f1 |", "ok_so_far:"),
    "its line is stored to before": (
        f"{THRICE('s1 f1 |')} s1 f1 | {THRICE('s0 f0@e s0.8 s1 f1 | f0 |')}",
        "suspect: suspect hint open_at_store e; check hint stored_after_flush s0.8",
    ),
    "another thread has a flush open": (
        f"t1 s2 f2 t0 {THRICE('s1 f1 |')} s1 f1 | {THRICE('s0 f0 s1 f1 |')} t1 |",
        "suspect: suspect hint open_at_store f0",
    ),
    "a word in two lines, saved": ("s0.60x4@w s1x4@w f0 f1 |", "ok_so_far:"),
    "stored after its mark": ("s0 f0 | s1@m s2@m f1 f2 | o0>1", "check: check hint stored_after_mark m"),
    # Saved one fence late
    "each store": (THRICE("s0 s1 f1 | f0 |"), "check: check left s0"),
    "two of them": ("s0 s1 f1 | f0 | s0 s1 f1 | f0 |", "ok_so_far:"),
    "nothing is saved before": (THRICE("s0 | f0 |"), "ok_so_far:"),
    "with a hint there": (THRICE("s0.60x4@w s1x4@w s2 f2 | f0 f1 |"), "ok_so_far:"),
    "by one path": ("a: s0 f0 | b: " + THRICE("s0 s1 f1 | f0 |"), "check: check left s0 < b"),
    "by one path, with a hint by another": (
        "a: s0.60x4@w s1x4@w f0 f1 | b: " + THRICE("s4@w s5 f5 | f4 |"),
        "ok_so_far:",
    ),
    "twice by one path": ("a: s0 f0 | b: s0 s1 f1 | f0 | s0 s1 f1 | f0 |", "ok_so_far:"),
    "each store by two paths": (
        "a: " + THRICE("s0 s1 f1 | f0 |") + " b: " + THRICE("s0 s1 f1 | f0 |"),
        "check: check left s0",
    ),
    # In order
    "of one weight": (
        f"s9 | | f9 | {THRICE('s0 f0 s1 f1 |')} {THRICE('s2 s3 f3 | f2 |')} a: s4 f4 | b: {THRICE('s4 s5 f5 | f4 |')}",
        "check: check stores s9; check hint open_at_store f0; check left s2; check left s4 < b",
    ),
    "of each weight": (
        "s9 s9 s0 f0 | s1 | | f1 | s2 f2 s2.8@s | | f2 | s3 p3.8 s4 p4 f4 |",
        "fail: fail failure 21; lost stores s3; suspect stores s; check stores s1; meant stores s9",
    ),
}
