// The results of Direct3D's calls.
#pragma once

#include <cstdio>

#include <windows.h>

#include "failure.hpp"

// Ends the run if a call of Direct3D failed; `what` names its object.
inline void check(HRESULT result, const char* what) {
    if (SUCCEEDED(result)) return;
    char code[16];
    std::snprintf(code, sizeof code, "%08lx", (unsigned long)result);
    throw Failure(std::string("DeviceFailure: ") + what + " (" + code + ")");
}
