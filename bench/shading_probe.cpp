// At which point does llvmpipe take w when it shades each sample? A triangle in steep perspective whose corners have
// the weights (1, 0, 0), (0, 1, 0) and (0, 0, 1), drawn with a shader at each sample that stores the weights as floats.
//
//     bench/out/shading_probe [--size 256]
//
// Each sample is compared with two rules: numerator and denominator at the sample, and the numerator at the sample with
// the denominator (the sum, that is 1 / w) at the pixel's centre. By the first the weights add up to 1.
#include <cmath>
#include <cstdlib>
#include <cstring>

#include "shading_gl.hpp"

static const char *const vertex = R"(#version 450 core
layout(location = 0) in vec4 position;
layout(location = 1) in vec3 weight;
out vec3 weights;
void main() { gl_Position = position; weights = weight; }
)";
static const char *const fragment = R"(#version 450 core
in vec3 weights;
out vec4 color;
void main() { color = vec4(weights, float(gl_SampleID + 1)); }
)";
static const char *const read_vertex = R"(#version 450 core
void main() { gl_Position = vec4(vec2(gl_VertexID & 1, gl_VertexID >> 1) * 4.0 - 1.0, 0.0, 1.0); }
)";
static const char *const read_fragment = R"(#version 450 core
uniform sampler2DMS drawn;
uniform int index;
out vec4 color;
void main() { color = texelFetch(drawn, ivec2(gl_FragCoord.xy), index); }
)";

int main(int count, char **arguments) {
    int size = 256;
    for (int k = 1; k + 1 < count; k += 2)
        if (!std::strcmp(arguments[k], "--size")) size = std::atoi(arguments[k + 1]);
    try {
        gl::open(1);
        // Corners in pixels, and w. The places are whole, so that they are not changed by snapping.
        const double corners[3][3] = {{8, 8, 1}, {double(size) - 8, 24, 8}, {40, double(size) - 8, 40}};
        std::vector<float> data;
        for (int k = 0; k < 3; k++) {
            const double w = corners[k][2];
            for (const double v : {(2 * corners[k][0] / size - 1) * w, (2 * corners[k][1] / size - 1) * w, 0.5 * w, w})
                data.push_back(static_cast<float>(v));
            for (int c = 0; c < 3; c++) data.push_back(c == k);
        }
        GLuint array, frames[2], textures[2];
        glGenVertexArrays(1, &array);
        glBindVertexArray(array);
        gl::buffer(GL_ARRAY_BUFFER, data);
        glVertexAttribPointer(0, 4, GL_FLOAT, GL_FALSE, 28, nullptr);
        glVertexAttribPointer(1, 3, GL_FLOAT, GL_FALSE, 28, reinterpret_cast<void *>(16));
        glEnableVertexAttribArray(0), glEnableVertexAttribArray(1);
        glGenFramebuffers(2, frames);
        glGenTextures(2, textures);
        glBindTexture(GL_TEXTURE_2D_MULTISAMPLE, textures[0]);
        glTexImage2DMultisample(GL_TEXTURE_2D_MULTISAMPLE, 4, GL_RGBA32F, size, size, GL_TRUE);
        glBindFramebuffer(GL_FRAMEBUFFER, frames[0]);
        glFramebufferTexture2D(GL_FRAMEBUFFER, GL_COLOR_ATTACHMENT0, GL_TEXTURE_2D_MULTISAMPLE, textures[0], 0);
        gl::require(glCheckFramebufferStatus(GL_FRAMEBUFFER) == GL_FRAMEBUFFER_COMPLETE,
                    "no frame of floats with four samples");
        glViewport(0, 0, size, size);
        glClearColor(0, 0, 0, 0), glClear(GL_COLOR_BUFFER_BIT);
        glEnable(GL_MULTISAMPLE), glEnable(GL_SAMPLE_SHADING), glMinSampleShading(1);
        double places[4][2];
        for (GLuint s = 0; s < 4; s++) {
            float pair[2];
            glGetMultisamplefv(GL_SAMPLE_POSITION, s, pair);
            places[s][0] = pair[0], places[s][1] = pair[1];
        }
        glUseProgram(gl::program(vertex, fragment));
        glDrawArrays(GL_TRIANGLES, 0, 3);
        glDisable(GL_SAMPLE_SHADING);

        glBindTexture(GL_TEXTURE_2D, textures[1]);
        glTexStorage2D(GL_TEXTURE_2D, 1, GL_RGBA32F, size, size);
        glBindFramebuffer(GL_FRAMEBUFFER, frames[1]);
        glFramebufferTexture2D(GL_FRAMEBUFFER, GL_COLOR_ATTACHMENT0, GL_TEXTURE_2D, textures[1], 0);
        const GLuint reader = gl::program(read_vertex, read_fragment);
        glUseProgram(reader);
        std::printf("renderer: %s\n", gl::renderer().c_str());
        std::size_t shown = 0, told_apart = 0, by_sample = 0, by_centre = 0, other = 0;
        double worst_sum = 0, worst_sample = 0, worst_centre = 0;
        for (int s = 0; s < 4; s++) {
            glUniform1i(glGetUniformLocation(reader, "index"), s);
            glDrawArrays(GL_TRIANGLES, 0, 3);
            std::vector<float> pixels(4 * static_cast<std::size_t>(size) * static_cast<std::size_t>(size));
            glReadPixels(0, 0, size, size, GL_RGBA, GL_FLOAT, pixels.data());
            gl::check();
            for (int j = 0; j < size; j++)
                for (int i = 0; i < size; i++) {
                    const float *got = &pixels[4 * (static_cast<std::size_t>(j) * static_cast<std::size_t>(size) +
                                                    static_cast<std::size_t>(i))];
                    if (got[3] == 0) continue;
                    shown++;
                    const auto numerators = [&](double x, double y, double *n) {
                        double sum = 0;
                        for (int k = 0; k < 3; k++) {
                            const double *p = corners[(k + 1) % 3], *q = corners[(k + 2) % 3];
                            n[k] = ((q[0] - p[0]) * (y - p[1]) - (q[1] - p[1]) * (x - p[0])) / corners[k][2];
                            sum += n[k];
                        }
                        return sum;
                    };
                    double at_sample[3], at_centre[3], one = 0, two = 0, apart = 0;
                    const double sum = numerators(i + places[s][0], j + places[s][1], at_sample),
                                 centre = numerators(i + 0.5, j + 0.5, at_centre);
                    for (int k = 0; k < 3; k++) {
                        one = std::fmax(one, std::fabs(got[k] - at_sample[k] / sum));
                        two = std::fmax(two, std::fabs(got[k] - at_sample[k] / centre));
                        apart = std::fmax(apart, std::fabs(at_sample[k] / sum - at_sample[k] / centre));
                    }
                    worst_sum = std::fmax(worst_sum, std::fabs(double{got[0]} + got[1] + got[2] - 1));
                    worst_sample = std::fmax(worst_sample, one), worst_centre = std::fmax(worst_centre, two);
                    if (apart < 1e-4) continue;
                    told_apart++;
                    if (one < apart / 8)
                        by_sample++;
                    else if (two < apart / 8)
                        by_centre++;
                    else
                        other++;
                }
        }
        std::printf("%zu samples, of which %zu have rules more than 1e-4 apart: %zu take w at the sample, %zu at the "
                    "pixel's centre, %zu neither\n",
                    shown, told_apart, by_sample, by_centre, other);
        std::printf("weights are off by at most %.2e of the first rule, %.2e of the second; their sum is off 1 by at "
                    "most %.2e\n",
                    worst_sample, worst_centre, worst_sum);
        return 0;
    } catch (const std::exception &error) {
        std::fprintf(stderr, "%s\n", error.what());
        return 2;
    }
}
