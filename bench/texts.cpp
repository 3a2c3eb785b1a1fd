// Measures reading texts beside the DOM parser of simdjson, on the files that are named, and on made texts whose growth shows
// whether a hostile shape costs more than its length: the best of many runs each.
//
// It is linked with the static library path_bench:
//     g++ -O3 -DNDEBUG -std=c++17 bench/texts.cpp crates/path_bench/out/libpath_bench.a -lsimdjson -o texts && ./texts FILE..
#include <algorithm>
#include <chrono>
#include <cstdint>
#include <cstdio>
#include <cstdlib>
#include <fstream>
#include <iterator>
#include <malloc.h>
#include <simdjson.h>
#include <string>

#include "memory.hpp"

struct Counted {
  uint64_t count;
  bool refused;
};

extern "C" {
Counted path_bench_read(const uint8_t *text, size_t length);
}

template <typename Run> static double seconds(int rounds, Run run) {
  double best = 1e9;
  for (int round = 0; round < rounds; round++) {
    const auto start = std::chrono::steady_clock::now();
    run();
    best = std::min(best, std::chrono::duration<double>(std::chrono::steady_clock::now() - start).count());
  }
  return best;
}

static double reading(const std::string &text, int rounds) {
  return seconds(rounds, [&] {
    const Counted found = path_bench_read(reinterpret_cast<const uint8_t *>(text.data()), text.size());
    if (found.refused) {
      std::fprintf(stderr, "a text was refused\n");
      std::exit(1);
    }
  });
}

// The parser of an implementation, into buffers that are there already.
static double parsing(const std::string &text, const simdjson::implementation *how) {
  simdjson::get_active_implementation() = how;
  simdjson::dom::parser parser;
  const simdjson::padded_string padded(text);
  return seconds(200, [&] { (void)parser.parse(padded).error(); });
}

static void measure(const std::string &path, const simdjson::implementation *same, const simdjson::implementation *best) {
  std::ifstream file(path, std::ios::binary);
  const std::string text{std::istreambuf_iterator<char>(file), std::istreambuf_iterator<char>()};
  const double ours = reading(text, 200), theirs = parsing(text, same), their_best = parsing(text, best);
  const size_t slash = path.rfind('/');
  const auto rate = [&](double time) { return text.size() / time / 1e9; };
  std::printf("| %s | %.2f | %.2f | %.2f | %.2f |\n", path.c_str() + (slash == std::string::npos ? 0 : slash + 1), rate(ours), rate(theirs),
              rate(their_best), theirs / ours);
}

// ---- texts of n parts, of which four times as many are just below the text limit

static std::string joined(size_t n, const std::string &open, const std::string &close, std::string (*part)(size_t)) {
  std::string text = open;
  for (size_t i = 0; i < n; i++) {
    text += (i == 0 ? "" : ",") + part(i);
  }
  return text + close;
}

// Six digits, each number once, in no order that a sort could profit from.
static std::string digits(size_t i) {
  char made[16];
  std::snprintf(made, sizeof made, "%06zu", i * 619573 % 1000000);
  return made;
}

static std::string spelt(size_t i) {
  std::string made;
  for (char c : digits(i)) {
    char unit[8];
    std::snprintf(unit, sizeof unit, "\\u%04x", static_cast<unsigned>(c));
    made += unit;
  }
  return made;
}

struct Shape {
  const char *name;
  size_t parts;
  std::string (*made)(size_t);
};

static const Shape shapes[] = {
    {"members of one object", 95000, [](size_t n) { return joined(n, "{", "}", [](size_t i) { return "\"" + digits(i) + "\":0"; }); }},
    {"members with a long common prefix", 20500, [](size_t n) { return joined(n, "{", "}", [](size_t i) { return "\"" + std::string(40, 'x') + digits(i) + "\":0"; }); }},
    {"members spelt by escapes", 25000, [](size_t n) { return joined(n, "{", "}", [](size_t i) { return "\"" + spelt(i) + "\":0"; }); }},
    {"members of which each other one is spelt by escapes", 40000, [](size_t n) { return joined(n, "{", "}", [](size_t i) { return "\"" + (i % 2 == 0 ? digits(i) : spelt(i)) + "\":0"; }); }},
    {"small objects", 74000, [](size_t n) { return joined(n, "[", "]", [](size_t) { return std::string("{\"a\":0,\"b\":1}"); }); }},
    {"small numbers", 520000, [](size_t n) { return joined(n, "[", "]", [](size_t) { return std::string("1"); }); }},
    {"empty arrays", 345000, [](size_t n) { return joined(n, "[", "]", [](size_t) { return std::string("[]"); }); }},
    {"bytes of one string", 1048000, [](size_t n) { return "\"" + std::string(n, 'x') + "\""; }},
    {"escapes of one string", 174000, [](size_t n) { std::string text = "\""; for (size_t i = 0; i < n; i++) text += "\\u00e9"; return text + "\""; }},
    {"blanks", 1048000, [](size_t n) { return std::string(n, ' ') + "1"; }},
};

int main(int count, char **words) {
  const simdjson::implementation *same = simdjson::get_available_implementations()["westmere"];
  const simdjson::implementation *best = simdjson::get_available_implementations().detect_best_supported();
  if (same == nullptr || !same->supported_by_runtime_system()) {
    std::fprintf(stderr, "simdjson has no implementation for SSE4.2 here\n");
    return 2;
  }
  // What is freed is kept, so that no run waits for fresh pages.
  mallopt(M_MMAP_THRESHOLD, 1 << 30);
  mallopt(M_TRIM_THRESHOLD, 1 << 30);
  std::printf("| file | path_server, GB/s | simdjson for SSE4.2, GB/s | simdjson %s, GB/s | ratio to SSE4.2 |\n|---|---|---|---|---|\n", best->name().c_str());
  for (int i = 1; i < count; i++) {
    measure(words[i], same, best);
  }
  std::printf("\n| shape | parts | ns a part | with four times as many | growth |\n|---|---|---|---|---|\n");
  for (const Shape &shape : shapes) {
    const double one = reading(shape.made(shape.parts), 40);
    const double four = reading(shape.made(4 * shape.parts), 20);
    std::printf("| %s | %zu | %.1f | %.1f | %.2f |\n", shape.name, shape.parts, one * 1e9 / shape.parts, four * 1e9 / (4 * shape.parts), four / one);
  }
}
