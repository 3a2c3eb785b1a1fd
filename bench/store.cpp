// Measures a tenant's commands on a collection of equal documents: the time of one command, the best mean of many rounds, the
// growths that it asks for, and the memory that a document takes for as long as it is kept.
//
// It is linked with the static library path_bench:
//     g++ -O3 -DNDEBUG -std=c++17 bench/store.cpp crates/path_bench/out/libpath_bench.a -o store && ./store
#include <malloc.h>

#include <algorithm>
#include <chrono>
#include <cstdint>
#include <cstdio>
#include <cstdlib>
#include <string>

// ---- memory, counted

struct Tried {
  bool ok;
  void *block;
};

static bool counting = false;
static size_t growths = 0, held = 0, most = 0;

static void *noted(void *block) {
  if (!counting) return block;
  growths++;
  held += malloc_usable_size(block);
  most = std::max(most, held);
  return block;
}

extern "C" {
Tried rattle_alloc(size_t size, size_t align) {
  void *block = std::malloc(size != 0 ? size : align);
  if (block == nullptr) return {false, nullptr};
  return {true, noted(block)};
}
Tried rattle_realloc(void *block, size_t, size_t size, size_t align) {
  if (counting) held -= malloc_usable_size(block);
  void *moved = std::realloc(block, size != 0 ? size : align);
  if (moved == nullptr) return {false, nullptr};
  return {true, noted(moved)};
}
void rattle_dealloc(void *block) {
  if (counting) held -= malloc_usable_size(block);
  std::free(block);
}
}

// ---- what the static library exports

struct Counted {
  uint64_t count;
  bool refused;
};

extern "C" {
Counted path_bench_read(const uint8_t *text, size_t length);
Counted path_bench_store_put(const uint8_t *text, size_t length, size_t documents, size_t rounds);
Counted path_bench_store_drop(const uint8_t *text, size_t length, size_t documents, size_t rounds);
Counted path_bench_store_get(const uint8_t *text, size_t length, size_t documents, size_t rounds);
Counted path_bench_store_list(const uint8_t *text, size_t length, size_t documents, size_t rounds);
Counted path_bench_store_query(const uint8_t *text, size_t length, const uint8_t *query, size_t query_length, size_t documents,
                               size_t rounds);
}

static const uint8_t *bytes(const std::string &text) { return reinterpret_cast<const uint8_t *>(text.data()); }

static void need(Counted counted) {
  if (counted.refused) {
    std::fprintf(stderr, "store: a command was refused\n");
    std::exit(1);
  }
}

template <typename Run> static double seconds(Run run) {
  const auto start = std::chrono::steady_clock::now();
  need(run());
  return std::chrono::duration<double>(std::chrono::steady_clock::now() - start).count();
}

// The growths that a call asks for.
template <typename Run> static size_t counted(Run run) {
  counting = true;
  growths = held = most = 0;
  need(run());
  counting = false;
  return growths;
}

// What a round costs that is made once more, for each of its parts: in microseconds, and in growths. The runs are short, so that
// the best of them was not interrupted.
template <typename Work> static void row(const std::string &name, size_t documents, size_t parts, Work work) {
  const size_t rounds = std::max<size_t>(4, 2000 / documents);
  double few = 1e9, many = 1e9;
  for (int i = 0; i < 200; i++) {
    few = std::min(few, seconds([&] { return work(documents, 1); }));
    many = std::min(many, seconds([&] { return work(documents, 1 + rounds); }));
  }
  const size_t once = counted([&] { return work(documents, 1); });
  const size_t twice = counted([&] { return work(documents, 2); });
  std::printf("| %s | %zu | %.3f | %.2f |\n", name.c_str(), documents, (many - few) * 1e6 / rounds / parts,
              double(twice - once) / parts);
}

static void rows(const std::string &text) {
  const auto put = [&](size_t n, size_t r) { return path_bench_store_put(bytes(text), text.size(), n, r); };
  const auto drop = [&](size_t n, size_t r) { return path_bench_store_drop(bytes(text), text.size(), n, r); };
  const auto get = [&](size_t n, size_t r) { return path_bench_store_get(bytes(text), text.size(), n, r); };
  const auto list = [&](size_t n, size_t r) { return path_bench_store_list(bytes(text), text.size(), n, r); };
  for (size_t n : {1, 100, 250, 1000}) {
    row("put over a text", n, n, put);
    row("put, and its part of a drop", n, n, drop);
    row("get", n, n, get);
    row("list", n, 1, list);
    for (const char *asked : {"$.a[1]", "$.b"}) {
      const std::string query = asked;
      row("query `" + query + "`", n, 1, [&](size_t d, size_t r) {
        return path_bench_store_query(bytes(text), text.size(), bytes(query), query.size(), d, r);
      });
    }
  }
}

// The memory that one document more takes, where the last to be read is no larger than the others.
static void memory(const char *name, const std::string &text, size_t documents) {
  size_t peaks[2];
  for (size_t i = 0; i < 2; i++) {
    counted([&] { return path_bench_store_put(bytes(text), text.size(), documents << i, 1); });
    peaks[i] = most;
  }
  std::printf("| %s | %zu | %.0f |\n", name, text.size(), double(peaks[1] - peaks[0]) / double(documents));
}

int main() {
  const std::string small = "{\"a\":[10,20],\"b\":\"tea\"}";
  const std::string string = "\"" + std::string(1048574, 'x') + "\"";
  std::string many = "[" + small;
  while (many.size() + small.size() + 2 <= 1048576) many += "," + small;
  const std::string objects = many + "]";

  std::printf("| command, on texts of 23 bytes | documents | time, µs | allocations |\n|---|---|---|---|\n");
  rows(small);
  std::printf("\n| text | put into a new tenant, µs | `Document::read` alone, µs |\n|---|---|---|\n");
  for (const std::string *text : {&string, &objects}) {
    const char *name = text == &string ? "one string, 1 MiB" : "small objects, 1 MiB";
    double read = 1e9, put = 1e9;
    for (int i = 0; i < 60; i++) {
      read = std::min(read, seconds([&] { return path_bench_read(bytes(*text), text->size()); }));
      put = std::min(put, seconds([&] { return path_bench_store_put(bytes(*text), text->size(), 1, 1); }));
    }
    std::printf("| %s | %.0f | %.0f |\n", name, put * 1e6, read * 1e6);
  }
  std::printf("\n| document | bytes of its text | bytes of memory for one more |\n|---|---|---|\n");
  memory("23 bytes", small, 500);
  memory("one string, 1 MiB", string, 8);
  memory("small objects, 1 MiB", objects, 8);
}
