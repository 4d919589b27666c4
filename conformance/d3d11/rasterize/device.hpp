// A device of Direct3D 11, its targets and its states, each made once.
#pragma once

#include <map>
#include <string>
#include <tuple>

#include <dxgi.h>

#include "request.hpp"
#include "shaders.hpp"

constexpr DXGI_FORMAT COLORS = DXGI_FORMAT_R8G8B8A8_UNORM;

// What a list is drawn into: colours, depths, and the resolved pixels if there are several samples.
struct Frame {
    Held<ID3D11Texture2D> drawn, resolved, depths;
    Held<ID3D11RenderTargetView> color_view;
    Held<ID3D11DepthStencilView> depth_view;
};

class Device {
public:
    // `asked`: hardware, warp, or the number of an adapter.
    explicit Device(const std::string& asked) {
        const D3D_FEATURE_LEVEL levels[] = {D3D_FEATURE_LEVEL_11_0};
        Held<IDXGIAdapter1> adapter;
        D3D_DRIVER_TYPE kind = asked == "warp" ? D3D_DRIVER_TYPE_WARP : D3D_DRIVER_TYPE_HARDWARE;
        if (asked != "warp" && asked != "hardware") adapter = numbered(asked), kind = D3D_DRIVER_TYPE_UNKNOWN;
        check(D3D11CreateDevice(adapter.get(), kind, nullptr, 0, levels, 1, D3D11_SDK_VERSION, device.put(), &level,
                                context.put()),
              "no device of feature level 11.0");
        set_up();
    }

    Frame& frame(const Target& target) {
        auto key = std::make_tuple(target.width, target.height, target.samples, target.depth_bits);
        auto found = frames.find(key);
        return found != frames.end() ? found->second : frames.emplace(key, make_frame(target)).first->second;
    }

    ID3D11PixelShader* shader(Shading shading) {
        Held<ID3D11PixelShader>& made = shaders[shading];
        if (!made) made = make_pixel_shader(device.get(), shading);
        return made.get();
    }

    ID3D11RasterizerState* rasterizer(const State& state, bool is_anticlockwise_front, bool has_several) {
        Held<ID3D11RasterizerState>& made =
            rasterizers[{state.cull, is_anticlockwise_front, state.is_scissored, has_several}];
        if (!made) {
            D3D11_RASTERIZER_DESC asked = {};
            asked.FillMode = D3D11_FILL_SOLID;
            asked.CullMode = (D3D11_CULL_MODE)(D3D11_CULL_NONE + state.cull);
            asked.FrontCounterClockwise = is_anticlockwise_front;
            asked.DepthClipEnable = TRUE;
            asked.ScissorEnable = state.is_scissored;
            asked.MultisampleEnable = has_several;
            check(device->CreateRasterizerState(&asked, made.put()), "rasterizer state");
        }
        return made.get();
    }

    ID3D11DepthStencilState* depth_test(const State& state) {
        Held<ID3D11DepthStencilState>& made = depth_tests[{state.depth_test, state.depth_write}];
        if (!made) {
            D3D11_DEPTH_STENCIL_DESC asked = {};
            asked.DepthEnable = TRUE;
            asked.DepthWriteMask = state.depth_write ? D3D11_DEPTH_WRITE_MASK_ALL : D3D11_DEPTH_WRITE_MASK_ZERO;
            asked.DepthFunc = (D3D11_COMPARISON_FUNC)(D3D11_COMPARISON_NEVER + state.depth_test);
            check(device->CreateDepthStencilState(&asked, made.put()), "depth state");
        }
        return made.get();
    }

    ID3D11BlendState* blend(const State& state, const Equation& equation) {
        Held<ID3D11BlendState>& made =
            blends[{state.blend, state.write_mask, equation.color_source, equation.color_stored,
                    equation.color_operation, equation.alpha_source, equation.alpha_stored, equation.alpha_operation}];
        if (!made) {
            D3D11_BLEND_DESC asked = {};
            asked.RenderTarget[0] = blend_of(state, equation);
            check(device->CreateBlendState(&asked, made.put()), "blend state");
        }
        return made.get();
    }

    Held<ID3D11Buffer> buffer(const void* bytes, size_t size, UINT bind) {
        Held<ID3D11Buffer> made;
        D3D11_BUFFER_DESC asked = {(UINT)size, D3D11_USAGE_IMMUTABLE, bind, 0, 0, 0};
        D3D11_SUBRESOURCE_DATA data = {bytes, 0, 0};
        check(device->CreateBuffer(&asked, &data, made.put()), "buffer");
        return made;
    }

    Held<ID3D11Device> device;
    Held<ID3D11DeviceContext> context;
    D3D_FEATURE_LEVEL level;
    bool has_standard_pattern = false;

private:
    Held<ID3D11VertexShader> vertex_shader;
    Held<ID3D11InputLayout> input;
    std::map<std::tuple<uint32_t, uint32_t, uint32_t, uint32_t>, Frame> frames;
    std::map<Shading, Held<ID3D11PixelShader>> shaders;
    std::map<std::tuple<uint32_t, bool, uint32_t, bool>, Held<ID3D11RasterizerState>> rasterizers;
    std::map<std::pair<uint32_t, uint32_t>, Held<ID3D11DepthStencilState>> depth_tests;
    std::map<std::array<uint32_t, 8>, Held<ID3D11BlendState>> blends;

    static D3D11_RENDER_TARGET_BLEND_DESC blend_of(const State& state, const Equation& equation) {
        if (state.blend)
            return {TRUE, D3D11_BLEND_SRC_ALPHA, D3D11_BLEND_INV_SRC_ALPHA, D3D11_BLEND_OP_ADD,
                    D3D11_BLEND_ONE, D3D11_BLEND_ZERO, D3D11_BLEND_OP_ADD, (UINT8)state.write_mask};
        return {!equation.replaces(), (D3D11_BLEND)equation.color_source, (D3D11_BLEND)equation.color_stored,
                (D3D11_BLEND_OP)equation.color_operation, (D3D11_BLEND)alpha_factor(equation.alpha_source),
                (D3D11_BLEND)alpha_factor(equation.alpha_stored), (D3D11_BLEND_OP)equation.alpha_operation,
                (UINT8)state.write_mask};
    }

    static Held<IDXGIAdapter1> numbered(const std::string& number) {
        Held<IDXGIFactory1> factory;
        Held<IDXGIAdapter1> adapter;
        check(CreateDXGIFactory1(__uuidof(IDXGIFactory1), (void**)factory.put()), "list of adapters");
        if (FAILED(factory->EnumAdapters1((UINT)std::stoul(number), adapter.put())))
            throw Failure("NoAdapter: there is no adapter " + number);
        return adapter;
    }

    // What is the same for every draw.
    void set_up() {
        Held<ID3DBlob> code = compile(shader_source(""), "vertex", "vs_4_0");
        check(device->CreateVertexShader(code->GetBufferPointer(), code->GetBufferSize(), nullptr, vertex_shader.put()),
              "vertex shader");
        const D3D11_INPUT_ELEMENT_DESC layout[] = {
            {"POSITION", 0, DXGI_FORMAT_R32G32B32A32_FLOAT, 0, 0, D3D11_INPUT_PER_VERTEX_DATA, 0},
            {"COLOR", 0, DXGI_FORMAT_R8G8B8A8_UNORM, 0, 16, D3D11_INPUT_PER_VERTEX_DATA, 0}};
        check(device->CreateInputLayout(layout, 2, code->GetBufferPointer(), code->GetBufferSize(), input.put()),
              "layout");
        context->IASetInputLayout(input.get());
        context->VSSetShader(vertex_shader.get(), nullptr, 0);
        has_standard_pattern = takes_standard_pattern();
    }

    static D3D11_TEXTURE2D_DESC texture(UINT width, UINT height, DXGI_FORMAT format, DXGI_SAMPLE_DESC samples,
                                        UINT bind) {
        return {width, height, 1, 1, format, samples, D3D11_USAGE_DEFAULT, bind, 0, 0};
    }

    // Whether four samples can be asked to lie at the standard pattern; if not, at quality 0 they lie
    // at the device's own.
    bool takes_standard_pattern() {
        D3D11_TEXTURE2D_DESC asked =
            texture(64, 64, COLORS, {4, (UINT)D3D11_STANDARD_MULTISAMPLE_PATTERN}, D3D11_BIND_RENDER_TARGET);
        Held<ID3D11Texture2D> tried;
        return SUCCEEDED(device->CreateTexture2D(&asked, nullptr, tried.put()));
    }

    Frame make_frame(const Target& target) {
        Frame made;
        DXGI_SAMPLE_DESC one = {1, 0}, samples = {target.samples, 0};
        if (target.samples > 1 && has_standard_pattern) samples.Quality = (UINT)D3D11_STANDARD_MULTISAMPLE_PATTERN;
        UINT qualities = 0;
        device->CheckMultisampleQualityLevels(COLORS, target.samples, &qualities);
        if (target.samples > 1 && !qualities)
            throw Refusal("a target with " + std::to_string(target.samples) + " samples");
        D3D11_TEXTURE2D_DESC asked = texture(target.width, target.height, COLORS, samples, D3D11_BIND_RENDER_TARGET);
        check(device->CreateTexture2D(&asked, nullptr, made.drawn.put()), "target");
        check(device->CreateRenderTargetView(made.drawn.get(), nullptr, made.color_view.put()), "view of the target");
        DXGI_FORMAT depths = target.depth_bits == 16 ? DXGI_FORMAT_D16_UNORM : DXGI_FORMAT_D32_FLOAT;
        asked = texture(target.width, target.height, depths, samples, D3D11_BIND_DEPTH_STENCIL);
        check(device->CreateTexture2D(&asked, nullptr, made.depths.put()), "depths");
        check(device->CreateDepthStencilView(made.depths.get(), nullptr, made.depth_view.put()), "view of the depths");
        asked = texture(target.width, target.height, COLORS, one, D3D11_BIND_RENDER_TARGET);
        if (target.samples > 1) check(device->CreateTexture2D(&asked, nullptr, made.resolved.put()), "resolved target");
        return made;
    }
};
