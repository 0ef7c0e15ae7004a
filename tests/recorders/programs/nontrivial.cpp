// A place whose type is more than its bytes: this must not compile.
#define PMTRACE_IMPLEMENTATION
#include "pmtrace.h"

#include <string>

struct node {
    std::string name;
};

int main() {
    static node node;
    pmtrace_store(node.name, std::string(100, 'x'));
    return 0;
}
