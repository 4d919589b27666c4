"""Takes the library that the release has for the platform. Nothing is compiled."""

import os

from conan import ConanFile
from conan.errors import ConanInvalidConfiguration
from conan.tools.files import copy, get

SYSTEMS = {"Linux": "linux", "Windows": "windows", "Macos": "macos"}
PROCESSORS = {"x86_64": "x86_64", "armv8": "arm64", "riscv64": "riscv64"}
SUMS = {
    "linux-x86_64": "@SHA256:linux-x86_64@",
    "linux-arm64": "@SHA256:linux-arm64@",
    "linux-riscv64": "@SHA256:linux-riscv64@",
    "windows-x86_64": "@SHA256:windows-x86_64@",
    "windows-arm64": "@SHA256:windows-arm64@",
    "macos-x86_64": "@SHA256:macos-x86_64@",
    "macos-arm64": "@SHA256:macos-arm64@",
}
SHARED = {"linux": ["libtrirast.so.2"], "macos": ["libtrirast.dylib"], "windows": ["trirast.lib", "libtrirast.dll.a"]}


class Trirast(ConanFile):
    name = "trirast"
    version = "@VERSION@"
    description = "A proved rasterizer for triangles and polygons"
    license = "MIT OR Apache-2.0"
    package_type = "library"
    settings = "os", "arch", "compiler", "build_type"
    options = {"shared": [True, False]}
    default_options = {"shared": False}

    @property
    def _system(self):
        return SYSTEMS.get(str(self.settings.os), "")

    @property
    def _platform(self):
        return f"{self._system}-{PROCESSORS.get(str(self.settings.arch), '')}"

    @property
    def _is_msvc(self):
        return self._system == "windows" and str(self.settings.compiler) != "gcc"

    def validate(self):
        if self._platform not in SUMS:
            raise ConanInvalidConfiguration(f"expected a platform of the release, got {self._platform}")

    def package_id(self):
        # The static library of Windows depends on the compiler; a release is of one build type.
        del self.info.settings.build_type
        if self._system != "windows":
            del self.info.settings.compiler

    def build(self):
        kind = "zip" if self._system == "windows" else "tar.gz"
        url = f"@URL@/trirast-@VERSION@-{self._platform}.{kind}"
        get(self, url, sha256=SUMS[self._platform], strip_root=True)

    def package(self):
        libraries = os.path.join(self.build_folder, "lib", self._platform)
        into = os.path.join(self.package_folder, "lib")
        copy(self, "*", os.path.join(self.build_folder, "include"), os.path.join(self.package_folder, "include"))
        copy(self, "LICENSE*", self.build_folder, os.path.join(self.package_folder, "licenses"))
        if not self.options.shared:
            copy(self, "trirast_static.lib" if self._is_msvc else "libtrirast.a", libraries, into)
            return
        for name in SHARED[self._system]:
            copy(self, name, libraries, into)
        copy(self, "*.dll", libraries, os.path.join(self.package_folder, "bin"))
        if self._system == "linux":
            os.symlink("libtrirast.so.2", os.path.join(into, "libtrirast.so"))

    def package_info(self):
        is_static = self._is_msvc and not self.options.shared
        self.cpp_info.libs = ["trirast_static" if is_static else "trirast"]
