/* --- the end of the program and of processes --- */

static int pmtrace_end_trace_(const char *label, int state);

static void pmtrace_at_exit_(void) {
    if (pmtrace_get_state_() == PMTRACE_OPEN_)
        (void)pmtrace_end_trace_(NULL, PMTRACE_OVER_);
}

/* The signal is handled as the system does. */
static void pmtrace_let_(int number) {
    struct sigaction action;
    memset(&action, 0, sizeof action);
    action.sa_handler = SIG_DFL;
    sigemptyset(&action.sa_mask);
    sigaction(number, &action, NULL);
}

/* Waits, for five seconds at most, until no other thread is in a call. A lock that stays taken by nobody was just taken, or is about to
 * be given back, by this thread, into which the signal came. */
static bool pmtrace_wait_for_calls_(void) {
    int by_nobody = 0;
    for (int waited = 0; waited < 5000; waited++) {
        if (pmtrace_owns_() || pmtrace_is_(&pmtrace_broken_))
            return true;
        if (pthread_mutex_trylock(&pmtrace_lock_) == 0) {
            /* for a second signal that comes into this one */
            __atomic_store_n(&pmtrace_owner_, (uintptr_t)pthread_self(), __ATOMIC_RELAXED);
            return true;
        }
        bool nobody = __atomic_load_n(&pmtrace_owner_, __ATOMIC_RELAXED) == 0;
        by_nobody = nobody && __atomic_load_n(&pmtrace_inside_, __ATOMIC_RELAXED) ? by_nobody + 1 : 0;
        if (by_nobody == 200)
            return true;
        nanosleep(&pmtrace_moment_, NULL);
    }
    return false;
}

/* A signal that ends the program: lets no call begin, and cuts the files behind their last lines. Then the signal takes its usual way.
 * Another one meanwhile waits too. */
static void pmtrace_on_death_(int number) {
    __atomic_store_n(&pmtrace_dying_, 1, __ATOMIC_SEQ_CST);
    pmtrace_write_how_("signal ", (unsigned)number);
    if (pmtrace_get_state_() == PMTRACE_OPEN_ && pmtrace_wait_for_calls_()) {
        pmtrace_cut_(&pmtrace_.trace);
        if (pmtrace_.labeled)
            pmtrace_cut_(&pmtrace_.labels);
    }
    pmtrace_let_(number);
    raise(number);
}

/* Signals that would be handled in the one way are from here on in the other. */
static void pmtrace_turn_signals_(void (*one)(int), void (*other)(int)) {
    static const int deadly[] = {SIGHUP,  SIGINT,  SIGQUIT, SIGILL,  SIGTRAP, SIGABRT, SIGBUS,  SIGFPE, SIGUSR1,
                                 SIGSEGV, SIGUSR2, SIGPIPE, SIGALRM, SIGTERM, SIGXCPU, SIGXFSZ, SIGSYS};
    for (size_t at = 0; at < sizeof deadly / sizeof deadly[0]; at++) {
        struct sigaction action;
        if (sigaction(deadly[at], NULL, &action) == 0 && !(action.sa_flags & SA_SIGINFO) && action.sa_handler == one) {
            memset(&action, 0, sizeof action);
            action.sa_handler = other;
            sigemptyset(&action.sa_mask);
            sigaction(deadly[at], &action, NULL);
        }
    }
}

/* After the destructors of static objects; or where a library that has the recorder is unloaded. */
__attribute__((destructor(101))) static void pmtrace_at_unloading_(void) {
    pmtrace_at_exit_();
    if (pmtrace_.prepared) {
        pmtrace_turn_signals_(pmtrace_on_death_, SIG_DFL);
        pthread_key_delete(pmtrace_key_);
    }
}

static bool pmtrace_forking_; /* the lock is held over a fork */

static void pmtrace_before_fork_(void) {
    bool taken = pmtrace_take_();
    pmtrace_forking_ = taken;
}

static void pmtrace_in_parent_(void) {
    if (pmtrace_forking_)
        pmtrace_give_();
}

/* The trace is the parent's. Of it the child keeps its name, its mappings and the count of what is missing. */
static void pmtrace_in_child_(void) {
    if (__atomic_load_n(&pmtrace_state_, __ATOMIC_SEQ_CST) == PMTRACE_OPEN_) {
        pmtrace_drop_file_(&pmtrace_.trace);
        if (pmtrace_.labeled)
            pmtrace_drop_file_(&pmtrace_.labels);
        pmtrace_stop_tracking_();
        pmtrace_forget_lines_();
        pmtrace_forget_ages_();
        pmtrace_free_pools_();
        __atomic_store_n(&pmtrace_state_, PMTRACE_FORKED_, __ATOMIC_SEQ_CST);
    }
    if (pmtrace_forking_)
        pmtrace_give_();
}

/* A child that was made by other means than fork, and wants a trace of its own: whoever had the lock is not here. */
static void pmtrace_come_to_(void) {
    pthread_mutex_init(&pmtrace_lock_, NULL);
    __atomic_store_n(&pmtrace_owner_, (uintptr_t)0, __ATOMIC_SEQ_CST);
    pmtrace_forking_ = false;
    pmtrace_in_child_();
}

/* What happens once, and what happens for each trace. */
static void pmtrace_prepare_(void) {
    if (!pmtrace_.prepared) {
        at_quick_exit(pmtrace_at_exit_);
        pthread_atfork(pmtrace_before_fork_, pmtrace_in_parent_, pmtrace_in_child_);
        pthread_key_create(&pmtrace_key_, pmtrace_on_thread_end_);
    }
    pmtrace_.prepared = true;
    /* those that the program handles or ignores stay as they are */
    pmtrace_turn_signals_(SIG_DFL, pmtrace_on_death_);
}
