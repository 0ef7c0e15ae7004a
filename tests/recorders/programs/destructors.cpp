// destructors TRACE: an engine that is a static object, made before the trace is opened, shuts down in its destructor.
#define PMTRACE_IMPLEMENTATION
#include "pmtrace.h"

alignas(64) static uint64_t pool[16];

struct Engine {
    bool up = false;

    void open(const char *trace) {
        up = pmtrace_open(trace, pool, sizeof pool, 64) == 0;
        pmtrace_store(pool[0], 1);
    }

    ~Engine() {
        if (up) {
            pmtrace_store(pool[8], 1);
            pmtrace_persist(pool, sizeof pool);
        }
    }
};

static Engine engine;

// What runs when the trace is closed, which only a system's library does otherwise.
#pragma GCC diagnostic ignored "-Wprio-ctor-dtor"
__attribute__((destructor(1))) static void too_late() {
    pmtrace_store(pool[1], 9);
}

int main(int argc, char **argv) {
    if (argc != 2)
        return 2;
    engine.open(argv[1]);
    return 0;
}
