// Reads texts that are made and changed at random, and prints for each thousand of them a digest of the verdicts and numbers of values so
// far, so that two builds of the reader are compared by comparing what they print.
//
//     g++ -O2 -std=c++17 bench/changed.cpp crates/path_bench/out/libpath_bench.a -o changed && ./changed SEED TEXTS FILE.. > new
//
// Of four texts one is an object of one of the files, and the others are made here: objects in objects with few different names, of which
// some come again, are spelt by escapes, or begin and end alike. Up to three bytes of each are then changed.
#include <cstdint>
#include <cstdio>
#include <cstdlib>
#include <fstream>
#include <iterator>
#include <random>
#include <string>
#include <utility>
#include <vector>

#include "memory.hpp"

struct Counted {
  uint64_t count;
  bool refused;
};

extern "C" Counted path_bench_read(const uint8_t *text, size_t length);

static std::mt19937_64 source;

static size_t below(size_t limit) { return source() % limit; }

static std::string name() {
  static const char *const names[] = {"",        "a",         "b",        "w",         "h",          "id",    "ab",       "abc",
                                      "abcd",    "abcde",     "abcdef",   "abcdefg",   "abcdefgh",   "price", "\\u0061",  "a\\u0062",
                                      "\\n",     "\xc3\xa9",  "\\u00e9",  "abcdefghi", "abcdefghij", "xabc",  "bcdefghij", "abcdXfghij"};
  if (below(3) == 0) {
    return "k" + std::to_string(below(40));
  }
  return names[below(sizeof names / sizeof *names)];
}

static std::string value(int depth);

static std::string object(int depth) {
  const size_t members = below(10) == 0 ? 14 + below(12) : below(5);
  const bool numbered = below(4) != 0;
  std::string text = "{";
  for (size_t i = 0; i < members; i++) {
    text += (i == 0 ? "\"" : ",\"") + name() + (numbered ? std::to_string(i) : "") + (below(20) == 0 ? "\" : " : "\":") + value(depth);
  }
  return text + "}";
}

static std::string array(int depth) {
  const size_t elements = below(5);
  std::string text = "[";
  for (size_t i = 0; i < elements; i++) {
    text += (i == 0 ? "" : ",") + value(depth);
  }
  return text + "]";
}

static std::string value(int depth) {
  switch (below(depth > 0 ? 9 : 5)) {
  case 0:
    return "1";
  case 1:
    return "-0.5e3";
  case 2:
    return "\"" + name() + "\"";
  case 3:
    return "null";
  case 4:
    return "true";
  case 5:
  case 6:
    return array(depth - 1);
  default:
    return object(depth - 1);
  }
}

// An object of a file from a place on, or as much of it as 6,000 bytes have.
static std::string part(const std::string &file) {
  const size_t open = file.find('{', below(file.size()));
  if (open == std::string::npos) {
    return file.substr(0, 100);
  }
  int depth = 0;
  bool inside = false;
  size_t end = open;
  for (; end < file.size() && end < open + 6000; end++) {
    const char c = file[end];
    if (inside) {
      end += c == '\\';
      inside = c != '"';
    } else if (c == '"') {
      inside = true;
    } else if (c == '{' || c == '[') {
      depth++;
    } else if ((c == '}' || c == ']') && --depth == 0) {
      return file.substr(open, end + 1 - open);
    }
  }
  return file.substr(open, end - open);
}

static void change(std::string &text) {
  static const char signs[] = "{}[],:\"\\ \n0a";
  const size_t at = below(text.size());
  const char sign = signs[below(sizeof signs - 1)];
  switch (below(4)) {
  case 0:
    text[at] = sign;
    break;
  case 1:
    text.insert(at, 1, sign);
    break;
  case 2:
    std::swap(text[at], text[below(text.size())]);
    break;
  default:
    text.erase(at, 1);
  }
}

int main(int count, char **words) {
  if (count < 3) {
    std::fprintf(stderr, "usage: changed SEED TEXTS FILE..\n");
    return 2;
  }
  source.seed(std::strtoull(words[1], nullptr, 10));
  std::vector<std::string> files;
  for (int i = 3; i < count; i++) {
    std::ifstream file(words[i], std::ios::binary);
    files.emplace_back(std::istreambuf_iterator<char>(file), std::istreambuf_iterator<char>());
  }
  uint64_t digest = 0;
  uint64_t accepted = 0;
  const long texts = std::atol(words[2]);
  for (long i = 1; i <= texts; i++) {
    std::string text = i % 4 == 0 && !files.empty() ? part(files[below(files.size())]) : value(3 + static_cast<int>(below(10)));
    for (size_t changes = below(4); changes > 0 && !text.empty(); changes--) {
      change(text);
    }
    const Counted found = path_bench_read(reinterpret_cast<const uint8_t *>(text.data()), text.size());
    accepted += !found.refused;
    digest = digest * 1099511628211u + (found.refused ? 0 : 1 + found.count);
    if (i % 1000 == 0) {
      std::printf("%ld %016llx %llu\n", i, static_cast<unsigned long long>(digest), static_cast<unsigned long long>(accepted));
    }
  }
}
