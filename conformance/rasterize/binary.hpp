// Standard input and output as bytes: Windows changes line ends otherwise.
#pragma once

#include <cstdio>

#ifdef _WIN32
#include <fcntl.h>
#include <io.h>
inline void set_binary(std::FILE* file) { _setmode(_fileno(file), _O_BINARY); }
#else
inline void set_binary(std::FILE*) {}
#endif
