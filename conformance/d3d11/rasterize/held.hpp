// A pointer to an object of COM that is released with it.
#pragma once

#include <utility>

template <class T> class Held {
public:
    Held() = default;
    Held(Held&& other) noexcept : held(std::exchange(other.held, nullptr)) {}
    Held& operator=(Held&& other) noexcept { std::swap(held, other.held); return *this; }
    ~Held() { if (held) held->Release(); }
    T* operator->() const { return held; }
    T* get() const { return held; }
    explicit operator bool() const { return held; }
    // Where a call of Direct3D leaves a new object; the one that was held is released.
    T** put() { if (held) std::exchange(held, nullptr)->Release(); return &held; }
private:
    T* held = nullptr;
};
