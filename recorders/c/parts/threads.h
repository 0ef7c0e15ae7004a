/* --- the numbers of threads --- */

/* A thread has a number from its first event on. When it ends its number is given again, unless a flush of it is open: the next
 * fence by that number would complete that flush. Without an open flush nothing in the trace tells the two threads apart, since
 * all that an event's thread stands for is which fence completes which flush. */

/* Whether the calling thread has a number, which it gets now if it has none: the lowest. */
static bool pmtrace_has_number_(void) {
    unsigned number = 0;
    if (pmtrace_number_of_ == pmtrace_.opened)
        return true;
    while (number < PMTRACE_MOST_THREADS_ && pmtrace_.threads[number].given)
        number++;
    if (number == PMTRACE_MOST_THREADS_) {
        pmtrace_end_("a trace has at most 256 threads, and here is the 257th");
        return false;
    }
    pmtrace_.threads[number].given = true;
    pmtrace_.threads[number].flush_open = false;
    pmtrace_number_ = number;
    pmtrace_number_of_ = pmtrace_.opened;
    pthread_setspecific(pmtrace_key_, &pmtrace_);
    return true;
}
