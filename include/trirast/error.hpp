/* Errors as exceptions: a part of trirast.hpp. */
#ifndef TRIRAST_ERROR_HPP
#define TRIRAST_ERROR_HPP

#include <cstddef>
#include <cstdint>
#include <cstdio>
#include <cstdlib>
#include <exception>
#include <optional>
#include <stdexcept>
#include <string>

#include "../trirast.h"

/* 0 if the compiler has no exceptions (-fno-exceptions): then a call that would throw prints what it would throw, and
 * aborts. */
#if defined(__cpp_exceptions) || defined(_CPPUNWIND)
#define TRIRAST_EXCEPTIONS 1
#else
#define TRIRAST_EXCEPTIONS 0
#endif

namespace trirast {

/* A call that failed. Its text is the message of trirast.h and behind it the values that were passed and what they may
 * be, as "no such sample: expected 0 to 3, got 4". */
class Error : public std::runtime_error {
public:
    explicit Error(const trirast_error &error, const std::string &values = {})
        : std::runtime_error(message_of(error) + values), error_(error) {}
    explicit Error(trirast_status status, const std::string &values = {}) : Error(of_status(status), values) {}

    trirast_status status() const noexcept { return static_cast<trirast_status>(error_.status); }

    /* Why a batch cannot be drawn. 0 if the status is not that of a batch. */
    trirast_batch_cause batch_cause() const noexcept {
        return static_cast<trirast_batch_cause>(status() == TRIRAST_STATUS_BAD_BATCH ? error_.cause : 0);
    }

    /* Why a text is no draw list. 0 if the status is not that of a list. */
    trirast_list_cause list_cause() const noexcept {
        return static_cast<trirast_list_cause>(status() == TRIRAST_STATUS_BAD_LIST ? error_.cause : 0);
    }

    /* The index of the draw in which the error is, if it is in one. */
    std::optional<std::size_t> draw() const noexcept { return index_of(error_.draw); }

    /* Which one of the draw's own indices, vertices or quads is wrong, or which ring, polygon or corner, if it is one.
     * trirast_batch_cause has what each cause names. */
    std::optional<std::size_t> element() const noexcept { return index_of(error_.element); }

    /* The index itself, if an index is wrong. */
    std::optional<std::size_t> value() const noexcept { return index_of(error_.value); }

private:
    static trirast_error of_status(trirast_status status) noexcept {
        trirast_error error{};
        error.status = static_cast<std::uint32_t>(status), error.draw = error.element = error.value = TRIRAST_NONE;
        return error;
    }

    static std::optional<std::size_t> index_of(std::size_t index) noexcept {
        if (index == TRIRAST_NONE) return std::nullopt;
        return index;
    }

    static std::string message_of(const trirast_error &error) {
        char message[TRIRAST_ERROR_MESSAGE_SIZE] = "";
        return std::string(message, trirast_error_message(&error, message, sizeof message));
    }

    trirast_error error_;
};

namespace detail {

/* Throws an error; without exceptions prints it, and aborts. */
template <class Thrown>
[[noreturn]] void raise(const Thrown &error) {
#if TRIRAST_EXCEPTIONS
    throw error;
#else
    std::fprintf(stderr, "trirast: %s\n", error.what());
    std::abort();
#endif
}

/* Makes a call. Returns what it has thrown, if it has. */
template <class Call>
std::exception_ptr thrown_by(const Call &call) noexcept {
#if TRIRAST_EXCEPTIONS
    try {
        call();
    } catch (...) {
        return std::current_exception();
    }
#else
    call();
#endif
    return nullptr;
}

inline void check(trirast_status status) {
    if (status != TRIRAST_STATUS_OK) raise(Error(status));
}

/* values(status) is asked for the values only if the call failed. */
template <class Values>
void check(trirast_status status, const Values &values) {
    if (status != TRIRAST_STATUS_OK) raise(Error(status, values(status)));
}

/* Makes a call that writes an error. */
template <class Call>
void check_call(Call call) {
    trirast_error error{};
    if (call(&error) != TRIRAST_STATUS_OK) raise(Error(error));
}

/* values(error) is asked for the values only if the call failed. */
template <class Call, class Values>
void check_call(Call call, const Values &values) {
    trirast_error error{};
    if (call(&error) != TRIRAST_STATUS_OK) raise(Error(error, values(error)));
}

}  // namespace detail

}  // namespace trirast

#endif
