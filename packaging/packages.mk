# Packages and releases. The Makefile includes this file, and says of each target what it is for.

.PHONY: deb wheel npm release

# Whether the cross compiler for ARM64 is there: its package is made only then.
WITH_ARM64 := $(shell command -v aarch64-linux-gnu-gcc)

deb: $(STUB) $(PROGRAMS) $(WHY) $(LIBRARY_x86_64)
	$(PYTHON) -m tools.packaging.debian

wheel: $(LIBRARY_x86_64) $(if $(WITH_ARM64),$(LIBRARY_aarch64)) platforms
	$(PYTHON) -m tools.packaging.wheel

npm: lib/wasm64/canvas.wasm
	$(PYTHON) -m tools.packaging.npm

release: deb wheel npm
	$(PYTHON) -m tools.packaging.archives
	$(PYTHON) -m tools.packaging.recipes
	$(PYTHON) -m tools.packaging.release
