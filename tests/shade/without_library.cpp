// What filter.cpp needs of the C++ library where there is none for the processor: memory, and strings. Exceptions are
// not thrown there.
#include <cstdlib>
#include <new>
#include <string>

void *operator new(std::size_t size) { return std::malloc(size); }
void *operator new(std::size_t size, std::align_val_t alignment) {
    const std::size_t unit = static_cast<std::size_t>(alignment);
    return std::aligned_alloc(unit, (size + unit - 1) / unit * unit);
}
void operator delete(void *memory) noexcept { std::free(memory); }
void operator delete(void *memory, std::size_t) noexcept { std::free(memory); }
void operator delete(void *memory, std::align_val_t) noexcept { std::free(memory); }

template class std::basic_string<char>;
