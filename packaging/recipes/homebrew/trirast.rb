# Takes the library that the release has for the platform. Nothing is compiled.
class Trirast < Formula
  desc "Proved rasterizer for triangles and polygons"
  homepage "@URL@"
  version "@VERSION@"
  license any_of: ["MIT", "Apache-2.0"]

  on_macos do
    on_arm do
      url "@URL@/trirast-@VERSION@-macos-arm64.tar.gz"
      sha256 "@SHA256:macos-arm64@"
    end
    on_intel do
      url "@URL@/trirast-@VERSION@-macos-x86_64.tar.gz"
      sha256 "@SHA256:macos-x86_64@"
    end
  end

  on_linux do
    on_arm do
      url "@URL@/trirast-@VERSION@-linux-arm64.tar.gz"
      sha256 "@SHA256:linux-arm64@"
    end
    on_intel do
      url "@URL@/trirast-@VERSION@-linux-x86_64.tar.gz"
      sha256 "@SHA256:linux-x86_64@"
    end
  end

  def install
    include.install Dir["include/*"]
    lib.install Dir["lib/*"]
  end

  test do
    (testpath/"test.c").write <<~EOS
      #include <trirast.h>
      int main(void) { return trirast_interface() == TRIRAST_INTERFACE ? 0 : 1; }
    EOS
    system ENV.cc, "test.c", "-I#{include}", Dir["#{lib}/*/libtrirast.a"].first, "-o", "test"
    system "./test"
  end
end
