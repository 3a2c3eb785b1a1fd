// Measures the index of places beside stage 1 of simdjson, on the files that are named, in one
// process: the best of many runs each, by turns. A plain scanner, byte by byte, says in the same
// run what the places are.
#include <chrono>
#include <cstdint>
#include <cstdio>
#include <cstdlib>
#include <fstream>
#include <iterator>
#include <memory>
#include <simdjson.h>
#include <string>
#include <vector>

#include "memory.hpp"

// ---- what the static library exports, and the memory that it asks for

struct Indexed {
  size_t count;
  bool unclosed;
  bool control_inside;
  bool refused;
};

extern "C" {
Indexed path_bench_index(const uint8_t *text, size_t length, uint32_t *found, size_t room);
}

// ---- the plain scanner

struct Places {
  std::vector<uint32_t> found;
  bool unclosed = false;
  bool control_inside = false;
};

static bool is_blank(uint8_t byte) {
  return byte == ' ' || byte == '\t' || byte == '\n' || byte == '\r';
}

static bool is_op(uint8_t byte) {
  return byte == '{' || byte == '}' || byte == '[' || byte == ']' || byte == ':' || byte == ',';
}

static Places scan(const std::string &text) {
  Places places;
  bool escaped = false, inside = false, after_atom = false;
  for (size_t i = 0; i < text.size(); i++) {
    const uint8_t byte = uint8_t(text[i]);
    const bool real_quote = byte == '"' && !escaped;
    const bool atom = !inside && !real_quote && !is_blank(byte) && !is_op(byte);
    if (!inside && (is_op(byte) || real_quote || (atom && !after_atom))) {
      places.found.push_back(uint32_t(i));
    }
    if (inside && byte < 0x20) {
      places.control_inside = true;
    }
    escaped = byte == '\\' && !escaped;
    inside ^= real_quote;
    after_atom = atom;
  }
  places.unclosed = inside;
  return places;
}

static bool agrees(const std::string &text, const Places &places) {
  std::vector<uint32_t> found(places.found.size());
  const Indexed made = path_bench_index(reinterpret_cast<const uint8_t *>(text.data()), text.size(), found.data(), found.size());
  return !made.refused && made.count == places.found.size() && found == places.found &&
         made.unclosed == places.unclosed && made.control_inside == places.control_inside;
}

// ---- simdjson

struct StageOne {
  std::unique_ptr<simdjson::internal::dom_parser_implementation> parser;

  StageOne(const simdjson::implementation *from, size_t capacity) {
    if (from->create_dom_parser_implementation(capacity, 1024, parser) != simdjson::SUCCESS) {
      std::fprintf(stderr, "simdjson finds no memory\n");
      std::exit(2);
    }
  }
  simdjson::error_code run(const uint8_t *text, size_t length) {
    return parser->stage1(text, length, simdjson::stage1_mode::regular);
  }
};

// ---- time

template <typename Run> static double seconds(Run run) {
  const auto start = std::chrono::steady_clock::now();
  run();
  return std::chrono::duration<double>(std::chrono::steady_clock::now() - start).count();
}

static void least(double &best, double time) {
  if (time < best) {
    best = time;
  }
}

static std::string read(const std::string &path) {
  std::ifstream file(path, std::ios::binary);
  if (!file) {
    std::fprintf(stderr, "%s cannot be read\n", path.c_str());
    std::exit(2);
  }
  return {std::istreambuf_iterator<char>(file), std::istreambuf_iterator<char>()};
}

static bool measure(const std::string &path, const simdjson::implementation *same, const simdjson::implementation *best) {
  const std::string text = read(path);
  const Places places = scan(text);
  if (!agrees(text, places)) {
    std::printf("%s: the places differ from the plain scanner's\n", path.c_str());
    return false;
  }
  const simdjson::padded_string padded(text);
  const auto bytes = reinterpret_cast<const uint8_t *>(padded.data());
  const size_t length = padded.size();
  StageOne same_level(same, length), best_level(best, length);
  if (same_level.run(bytes, length) != simdjson::SUCCESS || best_level.run(bytes, length) != simdjson::SUCCESS) {
    std::printf("%s: refused by simdjson\n", path.c_str());
    return false;
  }
  double ours = 1e9, theirs = 1e9, their_best = 1e9;
  for (int round = 0; round < 300; round++) {
    least(ours, seconds([&] { path_bench_index(bytes, length, nullptr, 0); }));
    least(theirs, seconds([&] { (void)same_level.run(bytes, length); }));
    least(their_best, seconds([&] { (void)best_level.run(bytes, length); }));
  }
  const auto rate = [&](double time) { return double(length) / time / 1e9; };
  const size_t slash = path.rfind('/');
  std::printf("| %s | %zu | %zu | %.2f | %.2f | %.2f | %.2f |\n", path.c_str() + (slash == std::string::npos ? 0 : slash + 1), length,
              places.found.size(), rate(ours), rate(theirs), theirs / ours, rate(their_best));
  return true;
}

int main(int count, char **words) {
  if (count < 2) {
    std::fprintf(stderr, "usage: %s FILE..\n", words[0]);
    return 2;
  }
  const simdjson::implementation *same = simdjson::get_available_implementations()["westmere"];
  const simdjson::implementation *best = simdjson::get_available_implementations().detect_best_supported();
  if (same == nullptr || !same->supported_by_runtime_system()) {
    std::fprintf(stderr, "simdjson has no implementation for SSE4.2 here\n");
    return 2;
  }
  std::printf("| file | bytes | places | index, GB/s | simdjson westmere, GB/s | ratio | simdjson %s, GB/s |\n", best->name().c_str());
  std::printf("|---|---|---|---|---|---|---|\n");
  bool all = true;
  for (int i = 1; i < count; i++) {
    all = measure(words[i], same, best) && all;
  }
  return all ? 0 : 1;
}
