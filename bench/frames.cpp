// Measures how fast streams are taken apart into frames: small frames and long bodies, in pieces of many lengths, the best
// of many runs each. Linear in the stream means that a byte costs as much in a body of 2 MiB as in one a quarter as long.
// It is linked with the static library path_bench, which exports path_bench_frames.
#include <algorithm>
#include <chrono>
#include <cstdint>
#include <cstdio>
#include <cstdlib>
#include <vector>

#include "memory.hpp"

// ---- what the static library exports, and the memory that it asks for

struct Taken {
  uint64_t frames;
  uint64_t requests;
  bool ended;  // memory was refused, or a fault came
};

extern "C" {
// Feeds the stream in pieces of that length, and takes its frames as they become whole.
Taken path_bench_frames(const uint8_t *stream, size_t length, size_t piece, bool read_requests);
}

// ---- streams

typedef std::vector<uint8_t> Bytes;

// A GET of c/d1 with bytes behind it that make the body so long: no request where there are any.
static void add_frame(Bytes &stream, size_t body) {
  static const uint8_t get[] = {2,    0,    0,    0,    3,    0x00, 0x11, 0x22, 0x33, 0x44, 0x55, 0x66, 0x77,
                                0x88, 0x99, 0xaa, 0xbb, 0xcc, 0xdd, 0xee, 0xff, 1,    'c',  2,    'd',  '1'};
  for (int shift = 24; shift >= 0; shift -= 8) stream.push_back(static_cast<uint8_t>(body >> shift));
  for (size_t i = 0; i < body; i++) stream.push_back(i < sizeof get ? get[i] : static_cast<uint8_t>(i));
}

static double seconds(const Bytes &stream, size_t piece, bool read_requests, uint64_t frames) {
  double best = 1e9;
  for (int round = 0; round < 9; round++) {
    auto start = std::chrono::steady_clock::now();
    Taken taken = path_bench_frames(stream.data(), stream.size(), piece, read_requests);
    std::chrono::duration<double> time = std::chrono::steady_clock::now() - start;
    if (taken.ended || taken.frames != frames || taken.requests != (read_requests ? frames : 0)) {
      std::fprintf(stderr, "frames: wrong answer\n");
      std::exit(1);
    }
    best = std::min(best, time.count());
  }
  return best;
}

int main() {
  const size_t count = 1000000;
  Bytes small;
  for (size_t i = 0; i < count; i++) add_frame(small, 26);
  std::printf("| pieces of | million frames a second | ns a frame | ns with its request read |\n|---|---|---|---|\n");
  for (size_t piece : {65536, 1024, 30, 7, 1}) {
    double taken = seconds(small, piece, false, count);
    double read = seconds(small, piece, true, count);
    std::printf("| %zu bytes | %.1f | %.1f | %.1f |\n", piece, count / taken / 1e6, taken * 1e9 / count, read * 1e9 / count);
  }
  std::printf("\n| bodies of | pieces of | ns a byte |\n|---|---|---|\n");
  for (size_t body : {524288, 6291456}) {
    Bytes large;
    for (int i = 0; i < 4; i++) add_frame(large, body);
    for (size_t piece : {1, 7, 1024, 65536, 8388624}) {
      double taken = seconds(large, piece, false, 4);
      std::printf("| %zu bytes | %zu bytes | %.3f |\n", body, piece, taken * 1e9 / large.size());
    }
  }
}
