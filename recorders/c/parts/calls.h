/* --- the beginning and the end of a call --- */

static const struct timespec pmtrace_moment_ = {0, 1000000};

static bool pmtrace_owns_(void) {
    return __atomic_load_n(&pmtrace_owner_, __ATOMIC_RELAXED) == (uintptr_t)pthread_self();
}

/* A call will not give the lock back: the trace ends there, and no later call takes the lock. */
static void pmtrace_break_(const char *why) {
    if (__atomic_exchange_n(&pmtrace_broken_, 1, __ATOMIC_SEQ_CST) == 0 && pmtrace_get_state_() == PMTRACE_OPEN_)
        pmtrace_end_(why);
}

/* Waits for the lock while the calls of other threads go on. */
static bool pmtrace_wait_(void) {
    uint64_t calls = __atomic_load_n(&pmtrace_.calls, __ATOMIC_RELAXED);
    for (int waited = 0; waited < PMTRACE_SECONDS_ && !pmtrace_is_(&pmtrace_broken_); waited++) {
        struct timespec until;
        clock_gettime(CLOCK_REALTIME, &until);
        until.tv_sec++;
        if (pthread_mutex_timedlock(&pmtrace_lock_, &until) == 0)
            return true;
        if (__atomic_load_n(&pmtrace_.calls, __ATOMIC_RELAXED) != calls) {
            calls = __atomic_load_n(&pmtrace_.calls, __ATOMIC_RELAXED);
            waited = -1;
        }
    }
    pmtrace_break_("a call of another thread did not return for ten seconds");
    return false;
}

/* The thread can't be cancelled in between. A cancellation at any moment may be on its way, which its type alone keeps off. */
static void pmtrace_keep_(int *cancel, int *type) {
    pthread_setcancelstate(PTHREAD_CANCEL_DISABLE, cancel);
    pthread_setcanceltype(PTHREAD_CANCEL_DEFERRED, type);
}

static void pmtrace_release_(int cancel, int type) {
    if (type != PTHREAD_CANCEL_DEFERRED)
        pthread_setcanceltype(type, NULL);
    if (cancel != PTHREAD_CANCEL_DISABLE)
        pthread_setcancelstate(cancel, NULL);
}

/* Takes the lock. The thread can't be cancelled until it gives it back. False where a call never gave it back. */
static bool pmtrace_take_(void) {
    int error = errno, cancel, type;
    if (pmtrace_owns_()) {
        pmtrace_break_("a call was left by a jump, or a signal handler came into it");
        return false;
    }
    pmtrace_keep_(&cancel, &type);
    __atomic_store_n(&pmtrace_inside_, 1, __ATOMIC_RELAXED);
    if (pmtrace_is_(&pmtrace_broken_) || (pthread_mutex_trylock(&pmtrace_lock_) != 0 && !pmtrace_wait_())) {
        __atomic_store_n(&pmtrace_inside_, 0, __ATOMIC_RELAXED);
        pmtrace_release_(cancel, type);
        errno = error;
        return false;
    }
    __atomic_store_n(&pmtrace_owner_, (uintptr_t)pthread_self(), __ATOMIC_RELAXED);
    __atomic_store_n(&pmtrace_.calls, pmtrace_.calls + 1, __ATOMIC_RELAXED);
    pmtrace_.error = error;
    pmtrace_.cancel = cancel;
    pmtrace_.cancel_type = type;
    return true;
}

static void pmtrace_give_(void) {
    int error = pmtrace_.error, cancel = pmtrace_.cancel, type = pmtrace_.cancel_type;
    __atomic_store_n(&pmtrace_owner_, (uintptr_t)0, __ATOMIC_RELAXED);
    pthread_mutex_unlock(&pmtrace_lock_);
    __atomic_store_n(&pmtrace_inside_, 0, __ATOMIC_RELAXED);
    pmtrace_release_(cancel, type);
    errno = error;
}

/* A call that nothing is noted of. What a child does to a pool that it shares with its parent is told, and counted for the
 * parent; so is a call that comes when the program has all but exited. */
static void pmtrace_pass_(int state, const volatile void *start, size_t length) {
    static int told;
    bool reaches = state == PMTRACE_OVER_;
    for (unsigned number = 0; state == PMTRACE_FORKED_ && number < pmtrace_.mapping_count; number++) {
        const pmtrace_mapping_ *mapping = &pmtrace_.mappings[number];
        uintptr_t from = mapping->range.at, first = (uintptr_t)start;
        reaches = reaches || (mapping->shared && first < from + mapping->range.length && from < first + length);
    }
    if (!reaches)
        return;
    if (state == PMTRACE_FORKED_ && pmtrace_children_ != NULL)
        __atomic_fetch_add(pmtrace_children_, 1, __ATOMIC_SEQ_CST);
    if (__atomic_exchange_n(&told, 1, __ATOMIC_SEQ_CST) == 0)
        pmtrace_tell_(state == PMTRACE_FORKED_ ? "%s: what this child of fork does to the pool is not in the trace"
                                               : "%s: what comes after the end of the program is not in the trace",
                      pmtrace_.name);
}

/* While a signal ends the program its threads wait, so that none stores past the lock. Another handler than ours may prevent it. */
static void pmtrace_wait_for_death_(void) {
    for (int waited = 0; waited < 2000 * PMTRACE_SECONDS_ && !pmtrace_is_(&pmtrace_broken_); waited++)
        nanosleep(&pmtrace_moment_, NULL);
    pmtrace_break_("a signal was to end the program, and did not");
}

/* Takes the lock, if a trace is open. The call is about these bytes. */
static bool pmtrace_enter_(const char *label, const volatile void *start, size_t length) {
    int state = pmtrace_get_state_();
    if (state != PMTRACE_OPEN_) {
        if (state != PMTRACE_CLOSED_)
            pmtrace_pass_(state, start, length);
        return false;
    }
    if (pmtrace_is_(&pmtrace_dying_))
        pmtrace_wait_for_death_();
    if (!pmtrace_take_()) {
        __atomic_fetch_add(&pmtrace_lost_, 1, __ATOMIC_RELAXED);
        return false;
    }
    if (pmtrace_get_state_() != PMTRACE_OPEN_) {
        pmtrace_give_();
        return false;
    }
    pmtrace_.label = label;
    if (pmtrace_.seen >= pmtrace_.start_at || pmtrace_.seen >= pmtrace_.stop_at)
        pmtrace_turn_();
    return true;
}

/* Gives the lock back. What the call noted is in the files. */
static void pmtrace_leave_(void) {
    pmtrace_write_all_();
    pmtrace_give_();
}

/* The thread's number may be given again, but where a flush of it is open. */
static void pmtrace_on_thread_end_(void *none) {
    (void)none;
    if (pmtrace_number_of_ == 0 || !pmtrace_enter_(NULL, NULL, 0))
        return;
    if (pmtrace_number_of_ == pmtrace_.opened && !pmtrace_.threads[pmtrace_number_].flush_open)
        pmtrace_.threads[pmtrace_number_].given = false;
    pmtrace_number_of_ = 0;
    pmtrace_leave_();
}
