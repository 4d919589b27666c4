// OpenGL without a window, by Mesa's llvmpipe. Link with -lEGL -lGL.
#ifndef SHADING_GL_HPP
#define SHADING_GL_HPP

#define GL_GLEXT_PROTOTYPES
#include <EGL/egl.h>
#include <EGL/eglext.h>
#include <GL/gl.h>
#include <GL/glext.h>

#include <cstdio>
#include <cstdlib>
#include <stdexcept>
#include <string>
#include <vector>

namespace gl {

inline void require(bool holds, const std::string &what) {
    if (!holds) throw std::runtime_error("OpenGL: " + what);
}

// Makes a context current on this thread. `threads` are llvmpipe's own; with 1 it has none, and draws on the caller's
// thread.
inline void open(unsigned threads) {
    setenv("LIBGL_ALWAYS_SOFTWARE", "1", 1);
    setenv("GALLIUM_DRIVER", "llvmpipe", 1);
    setenv("LP_NUM_THREADS", threads == 1 ? "0" : std::to_string(threads).c_str(), 1);
    const auto display_of =
        reinterpret_cast<PFNEGLGETPLATFORMDISPLAYEXTPROC>(eglGetProcAddress("eglGetPlatformDisplayEXT"));
    require(display_of, "no platforms");
    const EGLDisplay display = display_of(EGL_PLATFORM_SURFACELESS_MESA, EGL_DEFAULT_DISPLAY, nullptr);
    require(eglInitialize(display, nullptr, nullptr) && eglBindAPI(EGL_OPENGL_API), "no display without a surface");
    const EGLint wanted[] = {EGL_SURFACE_TYPE, EGL_PBUFFER_BIT, EGL_RENDERABLE_TYPE, EGL_OPENGL_BIT, EGL_NONE};
    EGLConfig config;
    EGLint count = 0;
    require(eglChooseConfig(display, wanted, &config, 1, &count) && count, "no configuration");
    const EGLint version[] = {
        EGL_CONTEXT_MAJOR_VERSION,           4,       EGL_CONTEXT_MINOR_VERSION, 5, EGL_CONTEXT_OPENGL_PROFILE_MASK,
        EGL_CONTEXT_OPENGL_CORE_PROFILE_BIT, EGL_NONE};
    const EGLContext context = eglCreateContext(display, config, EGL_NO_CONTEXT, version);
    require(context != EGL_NO_CONTEXT && eglMakeCurrent(display, EGL_NO_SURFACE, EGL_NO_SURFACE, context),
            "no context of OpenGL 4.5");
}

inline std::string renderer() { return reinterpret_cast<const char *>(glGetString(GL_RENDERER)); }

inline GLuint shader(GLenum kind, const char *text) {
    const GLuint found = glCreateShader(kind);
    glShaderSource(found, 1, &text, nullptr);
    glCompileShader(found);
    GLint done = 0;
    glGetShaderiv(found, GL_COMPILE_STATUS, &done);
    char log[2048] = "";
    if (!done) glGetShaderInfoLog(found, sizeof log, nullptr, log);
    require(done, log);
    return found;
}

inline GLuint program(const char *vertex, const char *fragment) {
    const GLuint found = glCreateProgram();
    glAttachShader(found, shader(GL_VERTEX_SHADER, vertex));
    glAttachShader(found, shader(GL_FRAGMENT_SHADER, fragment));
    glLinkProgram(found);
    GLint done = 0;
    glGetProgramiv(found, GL_LINK_STATUS, &done);
    require(done, "a program that does not link");
    return found;
}

template <class T>
GLuint buffer(GLenum target, const std::vector<T> &data) {
    GLuint found;
    glGenBuffers(1, &found);
    glBindBuffer(target, found);
    glBufferData(target, static_cast<GLsizeiptr>(data.size() * sizeof(T)), data.data(), GL_STATIC_DRAW);
    return found;
}

inline GLuint renderbuffer(GLenum format, int samples, int width, int height) {
    GLuint found;
    glGenRenderbuffers(1, &found);
    glBindRenderbuffer(GL_RENDERBUFFER, found);
    glRenderbufferStorageMultisample(GL_RENDERBUFFER, samples, format, width, height);
    return found;
}

inline void check() {
    const GLenum error = glGetError();
    require(error == GL_NO_ERROR, "error " + std::to_string(error));
}

} // namespace gl

#endif
