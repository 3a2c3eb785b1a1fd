// Reads texts with the DOM parser of simdjson for SSE4.2, as bench/reading_steps.py has a program of the reader do: the number of rounds, and texts behind
// their lengths, in four bytes each. A line for each text says what came of it.
//
//     g++ -O3 -DNDEBUG -std=c++17 bench/parsed.cpp -lsimdjson -o parsed
#include <cstdint>
#include <cstdio>
#include <iostream>
#include <iterator>
#include <simdjson.h>
#include <string>

static uint32_t number_at(const std::string &bytes, size_t place) {
  uint32_t number = 0;
  for (size_t i = 0; i < 4; i++) {
    number = number << 8 | static_cast<uint8_t>(bytes.at(place + i));
  }
  return number;
}

int main() {
  const simdjson::implementation *same = simdjson::get_available_implementations()["westmere"];
  if (same == nullptr || !same->supported_by_runtime_system()) {
    std::fprintf(stderr, "simdjson has no implementation for SSE4.2 here\n");
    return 2;
  }
  simdjson::get_active_implementation() = same;
  const std::string bytes{std::istreambuf_iterator<char>(std::cin), std::istreambuf_iterator<char>()};
  const uint32_t rounds = number_at(bytes, 0);
  for (size_t place = 4; place < bytes.size();) {
    const size_t length = number_at(bytes, place);
    const simdjson::padded_string text(bytes.data() + place + 4, length);
    simdjson::dom::parser parser;
    simdjson::error_code error = simdjson::SUCCESS;
    for (uint32_t round = 0; round < rounds; round++) {
      error = parser.parse(text).error();
    }
    std::printf("%s\n", simdjson::error_message(error));
    place += 4 + length;
  }
}
