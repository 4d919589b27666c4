// Draws the list on standard input to standard output, as the program trirast does, by the library.
//
//     c++ -O2 draw.cpp $(pkg-config --cflags --libs trirast)
#include <cstdint>
#include <iostream>
#include <iterator>
#include <stdexcept>
#include <string>
#include <vector>

#include "trirast.h"

// Throws what an error says.
static void check(trirast_status status, const trirast_error &error) {
    if (status == TRIRAST_STATUS_OK) return;
    char message[TRIRAST_ERROR_MESSAGE_SIZE];
    trirast_error_message(&error, message, sizeof message);
    throw std::runtime_error(message);
}

static std::vector<std::uint8_t> draw(const std::string &json) {
    trirast_error error;
    trirast_image_info info;
    check(trirast_list_info(json.data(), json.size(), &info, &error), error);
    std::vector<std::uint8_t> file(info.file_bytes);
    check(trirast_list_draw(json.data(), json.size(), 32, file.data(), file.size(), &error), error);
    return file;
}

int main() {
    try {
        const std::string list{std::istreambuf_iterator<char>(std::cin), std::istreambuf_iterator<char>()};
        const std::vector<std::uint8_t> file = draw(list);
        std::cout.write(reinterpret_cast<const char *>(file.data()), static_cast<std::streamsize>(file.size()));
        return std::cout.flush() ? 0 : 1;
    } catch (const std::exception &error) {
        std::cerr << "trirast: " << error.what() << '\n';
        return 1;
    }
}
