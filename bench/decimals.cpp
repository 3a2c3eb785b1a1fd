// Times one comparison of two number texts, in nanoseconds: the least mean of many short rounds,
// since other work on the machine only ever adds to it.
//
// It is linked with the static library path_bench, which exports `decimal_order::compare` as decimal_compare, with -1, 0 or
// 1 for less, equal or greater:
//     c++ -O2 -std=c++17 bench/decimals.cpp crates/path_bench/out/libpath_bench.a -o decimals && ./decimals
#include <chrono>
#include <cstdint>
#include <cstdio>
#include <cstdlib>
#include <string>
#include <vector>

#include "memory.hpp"

extern "C" int32_t decimal_compare(const uint8_t *a, size_t a_len, const uint8_t *b, size_t b_len);

struct Case {
    const char *name;
    std::string a;
    std::string b;
    int32_t order;
};

static int32_t compare(const Case &c) {
    return decimal_compare(reinterpret_cast<const uint8_t *>(c.a.data()), c.a.size(),
                           reinterpret_cast<const uint8_t *>(c.b.data()), c.b.size());
}

static double nanoseconds(const Case &c) {
    const int rounds = 400;
    const int calls = 1000;
    double least = 1e18;
    for (int round = 0; round < rounds; round++) {
        auto start = std::chrono::steady_clock::now();
        int32_t sum = 0;
        for (int call = 0; call < calls; call++) {
            asm volatile("" ::: "memory");
            sum += compare(c);
        }
        auto end = std::chrono::steady_clock::now();
        if (sum != c.order * calls) {
            std::fprintf(stderr, "%s: wrong order\n", c.name);
            std::exit(1);
        }
        double mean = std::chrono::duration<double, std::nano>(end - start).count() / calls;
        if (mean < least) least = mean;
    }
    return least;
}

int main() {
    const std::vector<Case> cases = {
        {"1 digit", "1", "2", -1},
        {"1 and 3 digits", "7", "250", -1},
        {"8 digits, last differs", "12345678", "12345679", -1},
        {"15 digits, last differs", "123456789012345", "123456789012344", 1},
        {"18 digits, first differs", "123456789012345678", "223456789012345678", -1},
        {"18 digits, last differs", "123456789012345678", "123456789012345679", -1},
        {"18 digits, equal", "123456789012345678", "123456789012345678", 0},
        {"18 digits, negative", "-123456789012345678", "-123456789012345679", 1},
        {"17 and 18 digits", "12345678901234567", "123456789012345678", -1},
        {"17 digits, signs differ", "-12345678901234567", "12345678901234567", -1},
        {"price and integer", "12.99", "10", 1},
        {"two prices", "12.99", "12.95", 1},
        {"256 digits, last differs", std::string(255, '1') + "2", std::string(256, '1'), 1},
        {"256 bytes of a fraction", "1." + std::string(253, '1') + "2", "1." + std::string(254, '1'), 1},
        {"64 bytes of a fraction", "1." + std::string(61, '1') + "2", "1." + std::string(62, '1'), 1},
        {"zeros of 256 bytes", "0." + std::string(253, '0') + "1", "0." + std::string(254, '0'), 1},
        {"far exponents", "1e999999999", "1e-999999999", 1},
        {"far exponents, equal", "10e999999998", "1e999999999", 0},
    };
    std::printf("| pair of numbers | ns |\n|---|---|\n");
    for (const Case &c : cases) std::printf("| %s | %.0f |\n", c.name, nanoseconds(c));
}
