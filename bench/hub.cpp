// Measures a hub: what one frame costs from the call with its bytes to its reply, the best mean of many rounds, and the growths that
// it asks for.
//
// It is linked with the static library path_bench:
//     g++ -O3 -DNDEBUG -std=c++17 bench/hub.cpp crates/path_bench/out/libpath_bench.a -o hub && ./hub
#include <algorithm>
#include <chrono>
#include <cstdint>
#include <cstdio>
#include <cstdlib>
#include <string>

// ---- memory, counted

struct Tried {
  bool ok;
  void *block;
};

static size_t growths = 0;

extern "C" {
Tried rattle_alloc(size_t size, size_t align) {
  growths++;
  void *block = std::malloc(size != 0 ? size : align);
  return {block != nullptr, block};
}
Tried rattle_realloc(void *block, size_t, size_t size, size_t align) {
  growths++;
  void *moved = std::realloc(block, size != 0 ? size : align);
  return {moved != nullptr, moved};
}
void rattle_dealloc(void *block) { std::free(block); }
}

// ---- what the static library exports

struct Counted {
  uint64_t count;
  bool refused;
};

extern "C" Counted path_bench_hub(const uint8_t *before, size_t before_length, const uint8_t *piece, size_t length, size_t times);

static uint64_t run(const std::string &before, const std::string &piece, size_t times) {
  const Counted counted = path_bench_hub(reinterpret_cast<const uint8_t *>(before.data()), before.size(),
                                         reinterpret_cast<const uint8_t *>(piece.data()), piece.size(), times);
  if (counted.refused) {
    std::fprintf(stderr, "hub: a call was refused\n");
    std::exit(1);
  }
  return counted.count;
}

// ---- request frames of the tenant whose key is 16 bytes 00

static std::string big_endian(size_t n) {
  return {char(n >> 24), char(n >> 16), char(n >> 8), char(n)};
}

static std::string frame(char command, const std::string &fields) {
  return big_endian(21 + fields.size()) + command + big_endian(1) + std::string(16, '\0') + fields;
}

static std::string name(const std::string &bytes) { return char(bytes.size()) + bytes; }

static double seconds(const std::string &before, const std::string &piece, size_t times) {
  const auto start = std::chrono::steady_clock::now();
  run(before, piece, times);
  return std::chrono::duration<double>(std::chrono::steady_clock::now() - start).count();
}

// What a frame costs, where the piece is so many of it. The runs are short, so that the best of them was not interrupted.
static void row(const char *what, const std::string &before, const std::string &one, size_t frames) {
  const size_t few = 10, many = few + std::max<size_t>(2000 / frames, 10);
  std::string piece;
  for (size_t i = 0; i < frames; i++) piece += one;
  double least = 1e9, most = 1e9;
  for (int i = 0; i < 200; i++) {
    least = std::min(least, seconds(before, piece, few));
    most = std::min(most, seconds(before, piece, many));
  }
  const size_t start = growths;
  const uint64_t bytes = run(before, piece, few);
  const size_t middle = growths;
  run(before, piece, many);
  const double asked = double((growths - middle) - (middle - start)) / double((many - few) * frames);
  std::printf("| %s | %zu | %.0f | %.2f | %.0f |\n", what, frames, (most - least) * 1e9 / double((many - few) * frames), asked,
              double(bytes) / double(few * frames));
}

int main() {
  const std::string at = name("c") + name("d");
  const std::string text = "{\"a\":[10,20],\"b\":\"tea\"}";
  const std::string put = frame(1, at + text);
  std::puts("| request | frames in a piece | ns a frame | allocations | bytes of its reply |\n|---|---|---|---|---|");
  for (size_t frames : {1, 1000}) {
    row("GET", put, frame(2, at), frames);
    row("QUERY `$.a[1]`", put, frame(5, name("c") + "$.a[1]"), frames);
    row("QUERY `$.b`", put, frame(5, name("c") + "$.b"), frames);
    row("LIST", put, frame(4, name("c")), frames);
    row("USAGE", put, frame(7, ""), frames);
    row("PUT over a text", put, put, frames);
    row("GET of what is not there", put, frame(2, name("c") + name("e")), frames);
  }
}
