// Pictures that wait for being read back: cells of one staging texture, so that a batch of lists costs one wait.
#pragma once

#include <algorithm>

#include "device.hpp"

constexpr uint32_t SHEET = 1024;  // columns and rows of the staging texture, more if a picture has more

// The pixels of rows of RGBA8 as runs: a word has red, green, blue, and one less than the number of
// pixels, at most 256.
class Runs {
public:
    void add(const uint32_t* pixels, uint32_t count) {
        for (uint32_t k = 0; k < count; ++k) {
            uint32_t color = pixels[k] & 0xffffff;
            if (!words.empty() && words.back() >> 24 < 255 && (words.back() & 0xffffff) == color)
                words.back() += 1u << 24;
            else words.push_back(color);
        }
    }
    std::vector<uint32_t> words;
};

class Sheet {
public:
    Sheet(Device& device, AnswerStream& answers) : device(device), answers(answers) {}

    // Takes the picture of one request, which is read back later: as runs of colours, or with alpha as a
    // word for each pixel.
    void take(ID3D11Texture2D* picture, uint32_t width, uint32_t height, bool has_alpha) {
        if (width != cell_width || height != cell_height || used == columns * rows) {
            flush();
            make(width, height);
        }
        UINT x = used % columns * width, y = used / columns * height;
        device.context->CopySubresourceRegion(staging.get(), 0, x, y, 0, picture, 0, nullptr);
        ++used;
        waiting.push_back({"", has_alpha});
    }

    void refuse(const std::string& reason) { waiting.push_back({reason, false}); }

    // Reads all pictures back, and writes all answers in the order of their requests.
    void flush() {
        D3D11_MAPPED_SUBRESOURCE seen = {};
        if (used) check(device.context->Map(staging.get(), 0, D3D11_MAP_READ, 0, &seen), "reading back");
        uint32_t cell = 0;
        for (const auto& [reason, has_alpha] : waiting) {
            if (reason.empty() && has_alpha) write_words(seen, cell++);
            else if (reason.empty()) write_cell(seen, cell++);
            else answers.answer(REFUSED, reason.data(), reason.size());
        }
        if (used) device.context->Unmap(staging.get(), 0);
        waiting.clear();
        used = 0;
    }

private:
    Device& device;
    AnswerStream& answers;
    Held<ID3D11Texture2D> staging;
    uint32_t cell_width = 0, cell_height = 0, columns = 0, rows = 0, used = 0;
    // An empty string for a picture, else the reason of a refusal; and its alpha.
    std::vector<std::pair<std::string, bool>> waiting;

    const uint32_t* row_of(const D3D11_MAPPED_SUBRESOURCE& seen, uint32_t cell, uint32_t row) const {
        const uint8_t* line = (const uint8_t*)seen.pData + (cell / columns * cell_height + row) * (size_t)seen.RowPitch;
        return (const uint32_t*)line + cell % columns * cell_width;
    }
    void write_cell(const D3D11_MAPPED_SUBRESOURCE& seen, uint32_t cell) {
        Runs runs;
        for (uint32_t row = 0; row < cell_height; ++row) runs.add(row_of(seen, cell, row), cell_width);
        answers.answer(PICTURE, runs.words.data(), 4 * runs.words.size());
    }
    void write_words(const D3D11_MAPPED_SUBRESOURCE& seen, uint32_t cell) {
        std::vector<uint32_t> words;
        for (uint32_t row = 0; row < cell_height; ++row)
            words.insert(words.end(), row_of(seen, cell, row), row_of(seen, cell, row) + cell_width);
        answers.answer(VALUES, words.data(), 4 * words.size());
    }

    void make(uint32_t width, uint32_t height) {
        if (width == cell_width && height == cell_height) return;
        cell_width = width, cell_height = height;
        columns = std::max(1u, SHEET / width), rows = std::max(1u, SHEET / height);
        D3D11_TEXTURE2D_DESC asked = {
            columns * width, rows * height, 1, 1, COLORS, {1, 0}, D3D11_USAGE_STAGING, 0, D3D11_CPU_ACCESS_READ, 0};
        check(device.device->CreateTexture2D(&asked, nullptr, staging.put()), "staging texture");
    }
};
