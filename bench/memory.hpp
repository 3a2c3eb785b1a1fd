// The memory that the static library path_bench asks its host for.
#pragma once
#include <cstddef>
#include <cstdlib>

struct Tried {
  bool ok;
  void *block;
};

extern "C" {
Tried rattle_alloc(size_t size, size_t align) {
  void *block = std::malloc(size != 0 ? size : align);
  return {block != nullptr, block};
}
Tried rattle_realloc(void *block, size_t, size_t size, size_t align) {
  void *moved = std::realloc(block, size != 0 ? size : align);
  return {moved != nullptr, moved};
}
void rattle_dealloc(void *block) { std::free(block); }
}
