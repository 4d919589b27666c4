/* Arrays of the caller: a part of trirast.hpp. */
#ifndef TRIRAST_SPAN_HPP
#define TRIRAST_SPAN_HPP

#include <cstddef>
#include <type_traits>
#include <utility>

namespace trirast {

namespace detail {

/* Is a type if a pointer is to elements of type T, or of T without const. A pointer to a struct that is derived from T
 * is not: its elements are larger. */
template <class Pointer, class T>
using IfElements = std::enable_if_t<std::is_convertible_v<std::remove_pointer_t<Pointer> (*)[], T (*)[]>>;

template <class C>
using DataOf = decltype(std::declval<C &>().data());

}  // namespace detail

/* Elements one after another in memory that another object owns. It takes a std::span of C++20 and becomes one, and is
 * the same type in code for C++17. */
template <class T>
class Span {
public:
    constexpr Span() noexcept = default;

    template <class U, class = detail::IfElements<U *, T>>
    constexpr Span(U *data, std::size_t size) noexcept : data_(data), size_(size) {}

    template <std::size_t count>
    constexpr Span(T (&array)[count]) noexcept : data_(array), size_(count) {}

    /* The elements of a container that has data() and size(), as std::vector and std::array. */
    template <class C, class = detail::IfElements<detail::DataOf<C>, T>>
    constexpr Span(C &&container) noexcept
        : data_(container.data()), size_(static_cast<std::size_t>(container.size())) {}

    constexpr T *data() const noexcept { return data_; }
    constexpr std::size_t size() const noexcept { return size_; }
    constexpr T *begin() const noexcept { return data_; }
    constexpr T *end() const noexcept { return data_ + size_; }
    constexpr T &operator[](std::size_t index) const noexcept { return data_[index]; }

private:
    T *data_ = nullptr;
    std::size_t size_ = 0;
};

}  // namespace trirast

#endif
