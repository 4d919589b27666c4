// Times a bare parse of the JSON on standard input by simdjson: no draw list is built, and none of its
// rules is checked.
//
//     g++ -O3 -std=c++17 -o bench/out/simdjson bench/simdjson.cpp -lsimdjson
//     bench/out/simdjson < list.json
//
// Prints the least times of seven rounds in nanoseconds: of the tape of values by a new parser, which allocates as a
// reader of one list does; of the same by a parser that keeps its memory; and of a walk over all values on demand. Then
// the sum of all integers, the same by the tape and by the walk, so that no parse can be left out.

#include <simdjson.h>

#include <algorithm>
#include <chrono>
#include <cstdint>
#include <cstdio>
#include <iterator>
#include <string>

namespace {

constexpr int rounds = 7;

// The sum of the integers in a value that simdjson has on its tape.
int64_t sum_of(simdjson::dom::element value) {
    int64_t sum = 0;
    if (value.is_array())
        for (simdjson::dom::element item : simdjson::dom::array(value)) sum += sum_of(item);
    else if (value.is_object())
        for (simdjson::dom::key_value_pair field : simdjson::dom::object(value)) sum += sum_of(field.value);
    else if (value.is_int64())
        sum += int64_t(value);
    return sum;
}

// The same of a value that is read on demand.
int64_t sum_of(simdjson::ondemand::value value) {
    int64_t sum = 0;
    switch (value.type()) {
    case simdjson::ondemand::json_type::array:
        for (simdjson::ondemand::value item : value.get_array()) sum += sum_of(item);
        break;
    case simdjson::ondemand::json_type::object:
        for (auto field : value.get_object()) sum += sum_of(field.value());
        break;
    case simdjson::ondemand::json_type::number: sum = value.get_int64(); break;
    case simdjson::ondemand::json_type::string: static_cast<void>(std::string_view(value.get_string())); break;
    case simdjson::ondemand::json_type::boolean: static_cast<void>(bool(value.get_bool())); break;
    default: break;
    }
    return sum;
}

template <class Parse>
int64_t least_nanoseconds(Parse parse) {
    int64_t least = INT64_MAX;
    for (int round = 0; round < rounds; ++round) {
        auto begin = std::chrono::steady_clock::now();
        parse();
        auto taken = std::chrono::steady_clock::now() - begin;
        least = std::min<int64_t>(least, std::chrono::duration_cast<std::chrono::nanoseconds>(taken).count());
    }
    return least;
}

std::string standard_input() {
    std::string text;
    char part[65536];
    for (size_t length; (length = std::fread(part, 1, sizeof part, stdin)) > 0;) text.append(part, length);
    return text;
}

}  // namespace

int main() try {
    const simdjson::padded_string text(standard_input());
    simdjson::dom::parser kept;
    simdjson::ondemand::parser walker;
    int64_t walked = 0;
    const int64_t fresh = least_nanoseconds([&] {
        simdjson::dom::parser parser;
        static_cast<void>(parser.parse(text).value());
    });
    const int64_t again = least_nanoseconds([&] { static_cast<void>(kept.parse(text).value()); });
    const int64_t walk = least_nanoseconds([&] {
        simdjson::ondemand::document document = walker.iterate(text);
        walked = sum_of(simdjson::ondemand::value(document));
    });
    const int64_t sum = sum_of(kept.parse(text).value());
    std::printf("new parser %lld ns, kept parser %lld ns, on demand %lld ns, sums %lld %lld, %s\n",
                static_cast<long long>(fresh), static_cast<long long>(again), static_cast<long long>(walk),
                static_cast<long long>(sum), static_cast<long long>(walked),
                simdjson::get_active_implementation()->name().c_str());
    return sum == walked ? 0 : 1;
} catch (const simdjson::simdjson_error& error) {
    std::fprintf(stderr, "simdjson: %s\n", error.what());
    return 1;
}
