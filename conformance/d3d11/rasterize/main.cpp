// Draws lists by Direct3D 11 and writes back what stands at each pixel.
//
//     rasterize.exe [--device hardware|warp|N] < requests > answers
//
// The requests are read and checked whole, then drawn one after another. Exit status 0 if every request has its answer;
// 2 if not, with one line on standard error that begins with the error's name. docs/reference/conformance.md says
// how the streams are made and compared.
#include "about.hpp"
#include "binary.hpp"
#include "sheet.hpp"

namespace {

void set_buffers(Device& device, const Request& request, Held<ID3D11Buffer>& vertices, Held<ID3D11Buffer>& indices) {
    if (request.indices.empty()) return;
    vertices =
        device.buffer(request.vertices.data(), request.vertices.size() * sizeof(Vertex), D3D11_BIND_VERTEX_BUFFER);
    indices = device.buffer(request.indices.data(), request.indices.size() * 4, D3D11_BIND_INDEX_BUFFER);
    ID3D11Buffer* one = vertices.get();
    UINT stride = sizeof(Vertex), offset = 0;
    device.context->IASetVertexBuffers(0, 1, &one, &stride, &offset);
    device.context->IASetIndexBuffer(indices.get(), DXGI_FORMAT_R32_UINT, 0);
}

void begin(Device& device, const Request& request, Frame& frame) {
    const Viewport& asked = request.viewport;
    D3D11_VIEWPORT viewport = {asked.left + asked.move_x / 256.f, asked.top + asked.move_y / 256.f, (float)asked.width,
                               (float)asked.height, 0, 1};
    const Clear& clear = request.clear;
    const float color[4] = {clear.red / 255.f, clear.green / 255.f, clear.blue / 255.f, request.clear_alpha / 255.f};
    ID3D11RenderTargetView* view = frame.color_view.get();
    device.context->OMSetRenderTargets(1, &view, frame.depth_view.get());
    device.context->RSSetViewports(1, &viewport);
    device.context->ClearRenderTargetView(view, color);
    device.context->ClearDepthStencilView(frame.depth_view.get(), D3D11_CLEAR_DEPTH, depth_value((int32_t)clear.depth),
                                          0);
}

Shading shading_of(const State& state, const Target& target) {
    return !state.is_shaded ? FLAT : target.samples > 1 ? BY_SAMPLE : BY_PIXEL;
}

void set_state(Device& device, const Request& request, const State& state, const Equation& equation) {
    ID3D11DeviceContext* context = device.context.get();
    context->RSSetState(device.rasterizer(state, request.is_anticlockwise_front(), request.target.samples > 1));
    context->OMSetDepthStencilState(device.depth_test(state), 0);
    const float constant[4] = {equation.constant_channel(0), equation.constant_channel(1), equation.constant_channel(2),
                               equation.constant_channel(3)};
    context->OMSetBlendState(device.blend(state, equation), constant, mask_of(state, request.target));
    context->IASetPrimitiveTopology(equation.topology == STRIP ? D3D11_PRIMITIVE_TOPOLOGY_TRIANGLESTRIP
                                                               : D3D11_PRIMITIVE_TOPOLOGY_TRIANGLELIST);
    context->PSSetShader(device.shader(shading_of(state, request.target)), nullptr, 0);
    D3D11_RECT box = {state.scissor[0], state.scissor[1], state.scissor[2], state.scissor[3]};
    context->RSSetScissorRects(1, &box);
}

// Throws `Refusal` before anything is drawn.
void draw(Device& device, Sheet& sheet, const Request& request) {
    bool is_resolved = request.output == RESOLVED || request.output == PIXELS;
    if (!is_resolved) throw Refusal("each sample by itself: not by Direct3D's program");
    Frame& frame = device.frame(request.target);
    for (const State& state : request.draws) device.shader(shading_of(state, request.target));
    Held<ID3D11Buffer> vertices, indices;
    set_buffers(device, request, vertices, indices);
    begin(device, request, frame);
    UINT first = 0;
    for (size_t k = 0; k < request.draws.size(); ++k) {
        const State& state = request.draws[k];
        set_state(device, request, state, request.equations[k]);
        if (state.indices) device.context->DrawIndexed(state.indices, first, 0);
        first += state.indices;
    }
    if (request.target.samples > 1)
        device.context->ResolveSubresource(frame.resolved.get(), 0, frame.drawn.get(), 0, COLORS);
    sheet.take(request.target.samples > 1 ? frame.resolved.get() : frame.drawn.get(), request.target.width,
               request.target.height, request.output == PIXELS);
}

void run(const std::string& asked) {
    RequestStream requests(stdin);
    Device device(asked);
    AnswerStream answers(requests, about(device, asked));
    Sheet sheet(device, answers);
    for (const Words& words : requests.requests) {
        try {
            draw(device, sheet, Request(words, requests.version(), -1));
        } catch (const Refusal& refusal) {
            sheet.refuse(refusal.what());
        }
    }
    sheet.flush();
    answers.write(stdout);
}

bool is_device(const std::string& word) {
    return word == "hardware" || word == "warp" ||
           (!word.empty() && word.size() < 4 && word.find_first_not_of("0123456789") == word.npos);
}

}  // namespace

int main(int count, char** arguments) {
    std::string device = count == 3 && std::string(arguments[1]) == "--device" ? arguments[2] : "hardware";
    if ((count != 1 && count != 3) || (count == 3 && std::string(arguments[1]) != "--device") || !is_device(device)) {
        std::fprintf(stderr, "usage: rasterize.exe [--device hardware|warp|N] < requests > answers\n");
        return 2;
    }
    set_binary(stdin);
    set_binary(stdout);
    static char out[1 << 20];
    std::setvbuf(stdout, out, _IOFBF, sizeof out);
    try {
        run(device);
    } catch (const std::exception& error) {
        std::fprintf(stderr, "rasterize: %s\n", error.what());
        return 2;
    }
    return 0;
}
