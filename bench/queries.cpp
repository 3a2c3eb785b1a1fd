// Measures compiling a query and evaluating it on a text that is read already: the best mean of many rounds.
//
// It is linked with the static library path_bench; FILE is an object whose `items` are small objects, as bench/running.py makes one:
//     g++ -O3 -DNDEBUG -std=c++17 bench/queries.cpp crates/path_bench/out/libpath_bench.a -o queries && ./queries FILE
#include <algorithm>
#include <chrono>
#include <cstdint>
#include <cstdio>
#include <cstdlib>
#include <fstream>
#include <iterator>
#include <string>

#include "memory.hpp"

struct Counted {
  uint64_t count;
  bool refused;
};

extern "C" {
Counted path_bench_compile(const uint8_t *query, size_t length, size_t rounds);
Counted path_bench_select(const uint8_t *text, size_t text_length, const uint8_t *query, size_t query_length, size_t rounds);
}

static const uint8_t *bytes(const std::string &text) { return reinterpret_cast<const uint8_t *>(text.data()); }

template <typename Run> static double seconds(Run run) {
  const auto start = std::chrono::steady_clock::now();
  run();
  return std::chrono::duration<double>(std::chrono::steady_clock::now() - start).count();
}

// Nanoseconds of one compilation.
static double compiling(const std::string &query) {
  const size_t rounds = 1000;
  double best = 1e9;
  for (int i = 0; i < 20; i++) {
    best = std::min(best, seconds([&] { path_bench_compile(bytes(query), query.size(), rounds); }));
  }
  return best * 1e9 / rounds;
}

// Microseconds of one evaluation: what so many more of them cost than one. With no rounds, for a query that is refused and ends
// the call: what one costs more than reading and compiling alone.
static double selecting(const std::string &text, const std::string &query, size_t rounds) {
  const size_t least = rounds == 0 ? 0 : 1;
  const size_t more = std::max<size_t>(rounds, 1);
  double few = 1e9, many = 1e9;
  for (int i = 0; i < 15; i++) {
    few = std::min(few, seconds([&] { path_bench_select(bytes(text), text.size(), bytes(query), query.size(), least); }));
    many = std::min(many, seconds([&] { path_bench_select(bytes(text), text.size(), bytes(query), query.size(), least + more); }));
  }
  return (many - few) * 1e6 / more;
}

static void row(const std::string &name, const std::string &text, const std::string &query, size_t rounds) {
  const Counted found = path_bench_select(bytes(text), text.size(), bytes(query), query.size(), 1);
  const std::string count = found.refused ? "too many" : std::to_string(found.count);
  std::printf("| %s | %s | %.2f | %.1f |\n", name.c_str(), count.c_str(), compiling(query) / 1000,
              std::max(0.0, selecting(text, query, found.refused ? 0 : rounds)));
}

static std::string repeated(const std::string &before, const std::string &middle, const std::string &after, size_t times) {
  std::string made;
  for (size_t i = 0; i < times; i++) made += before;
  made += middle;
  for (size_t i = 0; i < times; i++) made += after;
  return made;
}

int main(int count, char **words) {
  if (count != 2) {
    std::fprintf(stderr, "usage: %s FILE\n", words[0]);
    return 2;
  }
  std::ifstream file(words[1], std::ios::binary);
  const std::string text{std::istreambuf_iterator<char>(file), std::istreambuf_iterator<char>()};
  std::printf("| query | nodes selected | compile, µs | evaluate, µs |\n|---|---|---|---|\n");
  for (const char *query : {"$.a[1]", "$.items[?@.price<10&&@.stock>250]", "$.items[?@.name=='tea 17']", "$.items[?@.dim.w>@.dim.h].id", "$.items[?length(@.name)==6]",
                            "$.items[?count(@.tags[*])==2]", "$..rare", "$.items[*].tags[0]", "$.items[::-1].id"}) {
    row(std::string("`") + query + "`", text, query, 20);
  }
  row("`$..*`", text, "$..*", 20);
  std::string nested = repeated("[", "", "]", 128);
  row("`$..*..*` on 128 nested brackets", nested, "$..*..*", 20);
  std::string members = "{";
  for (int i = 0; i < 65000; i++) members += (i == 0 ? "\"k" : ",\"k") + std::to_string(i) + "\":0";
  members += "}";
  row("`$.k64999` on 65,000 members", members, "$.k64999", 20);
  row("`$[?@==1]` on 65,000 members", members, "$[?@==1]", 20);
  for (size_t times : {8, 31}) {
    row(std::to_string(times) + " parentheses", "[7]", "$[?" + repeated("(", "@", ")", times) + "]", 20);
    row(std::to_string(times) + " filters in one another", "[7]", "$[?" + repeated("@[?", "@", "]", times) + "]", 20);
  }
  for (size_t names : {500, 2000}) {
    row(std::to_string(names) + " names", "[7]", "$" + repeated(".a", "", "", names), 20);
  }
  for (size_t names : {500, 2000}) {
    row(std::to_string(names) + " selectors of a bracket", "[7]", "$[0" + repeated(",0", "", "", names) + "]", 20);
  }
}
