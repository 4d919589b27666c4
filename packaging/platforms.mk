# The library for systems for which the toolchain does not build, in lib/platforms. The Makefile includes this file, and
# says of each target what it is for.

.PHONY: platforms

# Debian's clang has the C headers for all of them. RISC-V's library is linked by its cross compiler.
PLATFORMS := $(if $(shell command -v clang),windows-x86_64 windows-arm64 macos-x86_64 macos-arm64 \
    $(if $(shell command -v riscv64-linux-gnu-gcc),linux-riscv64))
LIBRARY_CRATES := canvas_c trirast_c
PLATFORM_SOURCES := $(wildcard packaging/platforms/*) packaging/calls.c include/trirast.h \
    $(addprefix tools/packaging/,module.py portable.py platforms.py)

platforms: $(PLATFORMS:%=lib/platforms/%/SHA256SUMS)

lib/platforms/%/SHA256SUMS: $(PLATFORM_SOURCES)
	$(PYTHON) -m tools.packaging.platforms $* --rt $(RT)

# The modules that each is built from, in the folders that portable.py names.
MODULES_IN = $(LIBRARY_CRATES:%=lib/modules/$1/%.ll)
$(foreach name,windows-x86_64 macos-x86_64,lib/platforms/$(name)/SHA256SUMS): $(call MODULES_IN,x86-64-v2-optimized)
$(foreach name,windows-arm64 macos-arm64,lib/platforms/$(name)/SHA256SUMS): $(call MODULES_IN,aarch64)
lib/platforms/linux-riscv64/SHA256SUMS: $(call MODULES_IN,x86-64-v2)

lib/modules/x86-64-v2-optimized/%.ll: lib/modules/x86-64-v2/%.ll
	$(PYTHON) -m tools.packaging.module $< $@ --rt $(RT)

# Where a module was not kept as its archive was built, by this run of make or by an earlier one.
lib/modules/x86-64-v2/canvas_c.ll: $(CANVAS_ARCHIVE)
lib/modules/x86-64-v2/trirast_c.ll: $(ARCHIVE)
$(call MODULES_IN,aarch64): lib/modules/aarch64/%.ll: lib/aarch64/%.a
$(foreach processor,x86-64-v2 aarch64,$(call MODULES_IN,$(processor))):
	test -e $@ -a ! $< -nt $@ || \
	    $(PYTHON) -m tools.packaging.archive $(basename $(@F)) $(notdir $(@D)) --module $@ --rt $(RT) -o $(@:.ll=.a)
