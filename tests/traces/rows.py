"""The worked rows by name, and where each is run.

This is their only list. A trace is a file under examples/ or tests/traces/, which tests/test_examples.py runs. A test is a
function of the crate of tests, by its module. A file is a script or a module of tests, or one that such a file runs. Each has the row's name in it.
"""

ANSWERS = "tests/test_answers.py"
REFUSED = "tests/traces/refused_texts.py"
DEVICES = "tests/test_devices.py"
REFUSALS = "tests/test_refusals.py"
WORDS = "tests/test_words.py"


def trace(name):
    return f"{name}.trace"


# The rows that are a trace of their name, and nothing besides.
TRACES = (
    "empty_trace", "one_persist", "double_flush", "fence_of_another_thread", "two_rounds", "store_after_flush", "ordered_by_fence",
    "ordered_fence_too_late", "order_within_a_line", "overwritten_twice", "ranges_never_stored", "same_byte_twice", "flushed_again",
    "flush_by_an_unfenced_thread", "six_flushers", "clflush_beats_clwb", "clflush_twice", "mfence_as_fence", "sfence_after_clflush",
    "ordered_by_clflush", "narrow_line",
)

ROWS = {name: [trace(name)] for name in TRACES} | {
    "flushed_by_two_threads": [trace("flushed_by_two_threads"), REFUSALS],
    "refused_events": [ANSWERS],
    "widest_address": [trace("widest_address"), REFUSED],
    "truncated_and_bad_headers": [REFUSED],
    "forty_lines": [trace("forty_lines"), "library_tests::workers::all_on_the_callers_thread"],
    "two_recorders": ["crates/refused_calls/src/recording.rt", ANSWERS],
    "scripts": ["library_tests::recorder::scripts::scripts", WORDS],
    "reading_in_pieces": [DEVICES],
    "failing_writer": [DEVICES],
    "stream": [ANSWERS, REFUSALS],
    "million_events": ["library_tests::recorder::million_events", WORDS],
    "clflush_in_version_1": [REFUSED],
    "wide_line": [trace("wide_line"), ANSWERS],
    "bad_line_size": [REFUSED],
    "one_byte_per_read": [DEVICES],
    "stream_before_a_fault": [ANSWERS],
    "stream_as_it_goes": ["library_tests::trim::stream_holds_all_back"],
    "every_cut": [DEVICES],
    "every_read": [DEVICES],
    "every_write": [DEVICES],
    "endless_readers": [DEVICES],
    "the_bound": [DEVICES],
    "hostile_bytes": [DEVICES, REFUSED],
    "stream_header_then_failing_read": [DEVICES],
    "ordered_over_32_and_64": [trace("ordered_over_32"), trace("ordered_over_64")],
    "wide_fronts": [ANSWERS],
    "session_of_128": ["library_tests::recorder::session_of_128"],
    "trimmed_again": [ANSWERS],
}

# The rows whose answers contracts fix, by the functions that have them.
PROVED = {
    "split_and_selection": ("split_store", "Selection::from_numbers"),
    "not_in_format": ("Trace::push", "Book::push_event", "Shelf::append", "record_scripts"),
    "steps_of_a_job": ("split",),
    "read_fault_and_then_failed": ("analyse_with",),
}
