// A window of SDL2, if its header is found; and a picture in a file.
#ifndef WINDOW_HPP
#define WINDOW_HPP

#include <chrono>
#include <cstdint>
#include <cstdio>
#include <functional>
#include <optional>
#include <stdexcept>
#include <string>
#include <vector>

#include "trirast.hpp"

#if __has_include(<SDL.h>)
#include <SDL.h>
#endif

// Where a frame goes: rows of pixels, four bytes each.
struct Target {
    std::uint8_t *pixels;
    std::size_t stride, size;
    trirast_format format;
};

// What the user did since the last frame.
struct Input {
    struct Place {
        std::int32_t x, y;
    };
    double seconds = 0;                              // since the last frame
    double ahead = 0, aside = 0, turn = 0, tilt = 0; // keys that are held: -1 to 1
    std::optional<Place> click;
};

// Draws a frame, and returns what the title says beside the frames a second.
using DrawFrame = std::function<std::string(const Target &, const Input &)>;

inline void write_picture(const std::string &path, std::uint32_t width, std::uint32_t height,
                          const std::vector<std::uint8_t> &rgb) {
    std::FILE *file = path == "-" ? stdout : std::fopen(path.c_str(), "wb");
    if (!file) throw std::runtime_error("cannot write " + path);
    std::fprintf(file, "P6\n%u %u\n255\n", width, height);
    const bool is_whole = std::fwrite(rgb.data(), 1, rgb.size(), file) == rgb.size();
    const int status = file == stdout ? std::fflush(file) : std::fclose(file);
    if (!is_whole || status != 0) throw std::runtime_error("cannot write " + path);
}

#if __has_include(<SDL.h>)

inline void sdl(bool holds) {
    if (!holds) throw std::runtime_error(SDL_GetError());
}

inline trirast_format format_of(const SDL_Surface *surface) {
    const Uint32 format = surface->format->format;
    if (format == SDL_PIXELFORMAT_RGB888 || format == SDL_PIXELFORMAT_ARGB8888) return TRIRAST_FORMAT_BGRA8;
    if (format == SDL_PIXELFORMAT_BGR888 || format == SDL_PIXELFORMAT_ABGR8888) return TRIRAST_FORMAT_RGBA8;
    throw std::runtime_error("the window's pixels have no format of a canvas");
}

// Takes what the user did. Returns whether to go on.
inline bool take_events(Input &input) {
    SDL_Event event;
    input.click = std::nullopt;
    while (SDL_PollEvent(&event)) {
        if (event.type == SDL_QUIT || (event.type == SDL_KEYDOWN && event.key.keysym.sym == SDLK_ESCAPE)) return false;
        if (event.type == SDL_MOUSEBUTTONDOWN) input.click = Input::Place{event.button.x, event.button.y};
    }
    const Uint8 *held = SDL_GetKeyboardState(nullptr);
    const auto between = [held](SDL_Scancode less, SDL_Scancode more) {
        return static_cast<double>(held[more]) - held[less];
    };
    input.ahead = between(SDL_SCANCODE_S, SDL_SCANCODE_W), input.aside = between(SDL_SCANCODE_A, SDL_SCANCODE_D);
    input.turn = between(SDL_SCANCODE_LEFT, SDL_SCANCODE_RIGHT),
    input.tilt = between(SDL_SCANCODE_DOWN, SDL_SCANCODE_UP);
    return true;
}

// Draws frames in a window until it is closed.
inline void run_window(const std::string &name, std::uint32_t width, std::uint32_t height, const DrawFrame &draw) {
    using Clock = std::chrono::steady_clock;
    sdl(SDL_Init(SDL_INIT_VIDEO) == 0);
    SDL_Window *window = SDL_CreateWindow(name.c_str(), SDL_WINDOWPOS_CENTERED, SDL_WINDOWPOS_CENTERED,
                                          static_cast<int>(width), static_cast<int>(height), 0);
    sdl(window != nullptr);
    Input input;
    int frames = 0;
    for (Clock::time_point since = Clock::now(), last = since; take_events(input); frames++) {
        const Clock::time_point now = Clock::now();
        input.seconds = std::chrono::duration<double>(now - last).count(), last = now;
        SDL_Surface *surface = SDL_GetWindowSurface(window);
        sdl(surface != nullptr);
        const std::size_t stride = static_cast<std::size_t>(surface->pitch);
        const std::string says =
            draw({static_cast<std::uint8_t *>(surface->pixels), stride, stride * height, format_of(surface)}, input);
        sdl(SDL_UpdateWindowSurface(window) == 0);
        const double seconds = std::chrono::duration<double>(now - since).count();
        if (seconds < 0.5) continue;
        const int rate = static_cast<int>((frames + 1) / seconds);
        SDL_SetWindowTitle(window, (name + ": " + std::to_string(rate) + " frames a second" + says).c_str());
        since = now, frames = -1;
    }
    SDL_DestroyWindow(window);
    SDL_Quit();
}

#else

inline void run_window(const std::string &name, std::uint32_t, std::uint32_t, const DrawFrame &) {
    throw std::runtime_error(name + " was compiled without SDL2, so it opens no window: use --output FILE");
}

#endif

#endif
