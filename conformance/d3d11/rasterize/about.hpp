// What a device says of itself: lines of a question, a tab and its answer, in UTF-8.
#pragma once

#include "device.hpp"

inline std::string utf8(const wchar_t* text) {
    char bytes[512] = "";
    WideCharToMultiByte(CP_UTF8, 0, text, -1, bytes, sizeof bytes, nullptr, nullptr);
    return bytes;
}

inline std::string hexadecimal(unsigned number) {
    char text[16];
    std::snprintf(text, sizeof text, "%04x", number);
    return text;
}

// The version of Wine, or an empty string on Windows.
inline std::string wine_version() {
    using Ask = const char*(CDECL*)();
    Ask ask = (Ask)(void*)GetProcAddress(GetModuleHandleA("ntdll.dll"), "wine_get_version");
    return ask ? ask() : "";
}

inline std::string driver_version(IDXGIAdapter* adapter) {
    LARGE_INTEGER version;
    if (FAILED(adapter->CheckInterfaceSupport(__uuidof(IDXGIDevice), &version))) return "not said";
    std::string text;
    for (int shift = 48; shift >= 0; shift -= 16)
        text += (text.empty() ? "" : ".") + std::to_string(version.QuadPart >> shift & 0xffff);
    return text;
}

inline std::string about(Device& device, const std::string& asked) {
    Held<IDXGIDevice> dxgi;
    Held<IDXGIAdapter> adapter;
    DXGI_ADAPTER_DESC said = {};
    check(device.device->QueryInterface(__uuidof(IDXGIDevice), (void**)dxgi.put()), "IDXGIDevice");
    check(dxgi->GetAdapter(adapter.put()), "adapter");
    adapter->GetDesc(&said);
    UINT qualities = 0;
    device.device->CheckMultisampleQualityLevels(COLORS, 4, &qualities);
    std::string wine = wine_version();
    return "renderer\t" + utf8(said.Description) + "\nvendor and device\t" + hexadecimal(said.VendorId) + ", "
           + hexadecimal(said.DeviceId) + "\ndriver version\t" + driver_version(adapter.get()) + "\ndevice asked for\t"
           + asked + "\nfeature level\t" + hexadecimal(device.level) + "\nqualities of four samples\t"
           + std::to_string(qualities) + "\nstandard pattern of four samples\t"
           + (device.has_standard_pattern ? "taken by its name" : "not taken; quality 0") + "\nsystem\t"
           + (wine.empty() ? "Windows" : "Wine " + wine) + "\n";
}
