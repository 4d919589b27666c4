// The shaders, in HLSL, and their compiler, which is loaded from Windows or from Wine.
#pragma once

#include <string>

#include <d3d11.h>
#include <d3dcompiler.h>

#include "check.hpp"
#include "held.hpp"

// How a draw's colours reach its samples: one for a triangle, by the pixel, or by each sample.
enum Shading { FLAT, BY_PIXEL, BY_SAMPLE };

inline std::string shader_source(const char* interpolation) {
    return std::string("struct V { float4 p : SV_Position; ") + interpolation + " float4 c : COLOR; };"
           "V vertex(float4 p : POSITION, float4 c : COLOR) { V v; v.p = p; v.c = c; return v; }"
           "float4 pixel(V v) : SV_Target { return v.c; }";
}

// The code of an entry point. Throws `Refusal` if the compiler does not take the source.
inline Held<ID3DBlob> compile(const std::string& source, const char* entry, const char* target) {
    static const pD3DCompile compiler =
        (pD3DCompile)(void*)GetProcAddress(LoadLibraryA("d3dcompiler_47.dll"), "D3DCompile");
    if (!compiler) throw Failure("NoCompiler: there is no d3dcompiler_47.dll");
    Held<ID3DBlob> code, messages;
    if (FAILED(compiler(source.data(), source.size(), nullptr, nullptr, nullptr, entry, target, 0, 0, code.put(),
                        messages.put())))
        throw Refusal("the shader's compiler does not take it");
    return code;
}

inline Held<ID3D11PixelShader> make_pixel_shader(ID3D11Device* device, Shading shading) {
    static const char* const words[] = {"nointerpolation", "", "sample"};
    Held<ID3D11PixelShader> made;
    try {
        Held<ID3DBlob> code =
            compile(shader_source(words[shading]), "pixel", shading == BY_SAMPLE ? "ps_4_1" : "ps_4_0");
        check(device->CreatePixelShader(code->GetBufferPointer(), code->GetBufferSize(), nullptr, made.put()),
              "pixel shader");
    } catch (const Refusal& refusal) {
        throw Refusal(std::string("`") + words[shading] + "` interpolation: " + refusal.what());
    }
    return made;
}
