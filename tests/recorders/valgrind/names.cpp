// Functions of C++ that are named without their parameters, and one that is left by an exception: names POOL.
#include <fcntl.h>
#include <immintrin.h>
#include <stdexcept>
#include <sys/mman.h>
#include <unistd.h>

#define APART __attribute__((noipa))

static void flush(const char *place) {
    _mm_clwb(const_cast<char *>(place));
    _mm_sfence();
}

APART void save(char *place, unsigned long, bool fails) {
    if (fails)
        throw std::runtime_error("not saved");
    flush(place);
}

namespace tree {
struct Leaf {
    APART void save(char *place, unsigned long) const {
        flush(place);
    }
};
namespace {
template <class type> APART void put(type *place, unsigned long) {
    flush(reinterpret_cast<char *>(place));
}
APART void grow(char *place, unsigned long) {
    place[0] = 6;
    flush(place);
}
}
struct Root {
    APART void operator()(char *place, unsigned long) const {
        place[0] = 7;
        flush(place);
    }
};
template <class type, unsigned char number> struct Numbered {
    APART void put(type *place, unsigned long) {
        place[0] = number;
        flush(place);
    }
};
}

int main(int argc, char **argv) {
    int file = argc == 2 ? open(argv[1], O_RDWR | O_CREAT | O_TRUNC, 0666) : -1;
    if (file < 0 || ftruncate(file, 4096) != 0)
        return 1;
    auto *pool = static_cast<char *>(mmap(nullptr, 4096, PROT_READ | PROT_WRITE, MAP_SHARED, file, 0));
    pool[0] = 1;
    save(pool, 1, false);
    pool[64] = 2;
    try {
        save(pool + 64, 1, true);
    } catch (const std::exception &) {
        pool[128] = 3;
    }
    save(pool + 128, 1, false);
    pool[192] = 4;
    tree::Leaf().save(pool + 192, 1);
    pool[256] = 5;
    tree::put(reinterpret_cast<long *>(pool + 256), 8);
    tree::put(pool + 264, 8);
    tree::grow(pool + 320, 1);
    tree::Root()(pool + 384, 1);
    tree::Numbered<char, 8>().put(pool + 448, 1);
    auto last = [](char *place, unsigned long) APART {
        place[0] = 9;
        flush(place);
    };
    last(pool + 512, 1);
    return 0;
}
