# rt proves and builds; this file says where things lie. `make help` prints these lines.
#
# To use it:
#   make           prove what the program needs, and leave it at bin/trirast; a line for each crate, the rest in out/trirast_cli.log;
#                  with ARCH=aarch64 for ARM64 too, at bin/aarch64/trirast, by a cross compiler;
#                  with CPU=x86-64-v3 for processors of that level, at bin/x86-64-v3/trirast
#   make why       prove what trirast_why needs, and leave it at bin/trirast_why
#   make look      draw examples/mesh.json to out/look.ppm within two minutes, by a program that is not proved
#   make demo      draw every list of examples/ to out/*.pnm, and to out/*.png where pnmtopng is installed
#   make library   prove and build the core for other programs: lib/libtrirast.a, lib/libtrirast.so and lib/trirast.pc, and for
#                  the loader a second lib/x86-64-v3/libtrirast.so.2; with ARCH=aarch64 for ARM64 in lib/aarch64/, by a cross compiler
#   make install   program, manual page, headers, libraries, pkg-config and CMake files and schema below PREFIX (an absolute path,
#                  /usr/local if not given), behind DESTDIR where that is given; make uninstall takes them away.
#                  The program is installed for both levels of x86-64, and the loader takes that of the processor
#   make platforms the library for Windows and macOS on x86-64 and ARM64, and for Linux on RISC-V, from the same proved build: lib/platforms/
#   make web       the coverage explorer for browsers, in web/out, as python3 -m http.server -d web/out serves it
#   make clean     remove what this file made; what rt keeps in crates/*/out/ stays
#
# To test what was built:
#   make test      everything that runs, over bin/ and lib/, which it builds if they are missing or old; make test-long takes longer forms.
#                  Each check is a goal too, as named below; with LONG=1 it takes its longer form
#   make packages  install the Debian packages of all checks, as root: those of tools/packages.txt that are missing
#   make hostile   the check fault-injection: readers, writers, devices and threads that fail
#   make races     run the program under valgrind; no part of make test
#   make conformance  compare the machine's OpenGL driver with the program, sample by sample; out/conformance.html.
#                  With DEVICE=d3d11 Direct3D 11, here by Wine: out/conformance-d3d11.html; ADAPTER=warp or a number, else hardware.
#                  With DEVICE=vulkan Vulkan: out/conformance-vulkan.html; ADAPTER is a number or a part of a device's name
#   make conformance-windows  write dist/trirast-conformance-windows.zip, which asks Direct3D and Vulkan on a Windows machine
#
# To prove it:
#   make prove     rt ci: each crate from nothing with its tests, the programs by two compilers, and the must-fail edits; what an earlier
#                  run passed on this machine is taken over by the checksums of all that it read
#
# To measure it:
#   make bench     time the program on generated scenes
#   make frames    build the program that times frames by themselves, bin/frames, for python3 -m bench.llvmpipe and others;
#                  with CPU=x86-64-v3 also bin/x86-64-v3/frames, which those time beside it
#   make model     build the same rules in C++ to time beside, for python3 -m bench.llvmpipe: g++ 12 or clang++ 14, or later, on x86-64
#
# To package it:
#   make deb       the Debian packages of program, library and header, in dist/
#   make wheel     the Python packages with the library inside, one for each platform that could be built, in dist/
#   make npm       the package for JavaScript with the canvas for WebAssembly, in dist/
#   make release   all packages, an archive for each platform and the sources, with a table and SHA-256 checksums, in dist/

RT ?= rt
# The tests need pytest, which the python3 that comes first may lack.
ifndef PYTHON
HAS_PYTEST := -c 'import importlib.util as found; raise SystemExit(not found.find_spec("pytest"))'
PYTHON := $(or $(shell for it in python3 /usr/bin/python3; do $$it $(HAS_PYTEST) 2> /dev/null && echo $$it && break; done),python3)
endif
# One line if the kit is missing, before anything is built by it.
KIT = command -v $(RT) > /dev/null || { echo "$(RT): not found. This needs the Rattle kit, which is not public yet (README.md, Quick start)." \
    "Without it these run: python3 -m tests.reference.renderer < LIST.json, make model reference documents types check-conformance" >&2; \
    exit 1; }
# One line if packages of Debian are missing.
PACKAGES = command -v $(PYTHON) > /dev/null || { echo "make $@ cannot start without these packages: apt-get install" \
    "python3-pytest gcc libc6-dev binutils netpbm" >&2; exit 1; }; $(PYTHON) -m tools.packages
PREFIX ?= /usr/local
# Where libraries go below PREFIX.
LIBDIR = lib
# The processor of `make` and `make library`: x86_64 or aarch64.
ARCH = x86_64
# The level of x86-64 of `make` and `make compare`; the toolchain's if not given.
CPU =
ADAPTER ?= hardware
WINDOWS_CXX ?= x86_64-w64-mingw32-g++
# Set by .ci/run, if all that crates/*/out/ has is what rt ci has just proved: programs are then those that it built, and archives are
# built over its libraries.
OVER_RT_CI ?=

PROGRAM := bin/$(if $(CPU),$(CPU)/)trirast
WHY := bin/trirast_why
TILES := bin/refused_tiles
READER := bin/list_bench
FRAMES := bin/$(if $(CPU),$(CPU)/)frames
MODEL := bench/out/model
RASTERIZE := conformance/out/rasterize.exe
RASTERIZE_d3d11 := $(RASTERIZE)
RASTERIZE_vulkan := conformance/out/rasterize
ARCHIVE := crates/trirast_c/out/libtrirast_c.a
CANVAS_ARCHIVE := crates/canvas_c/out/libcanvas_c.a
SOURCES := crates.txt $(shell find crates -name out -prune -o -type f \( -name '*.rt' -o -name '*.antt' \) -print)
LISTS := $(wildcard examples/*.json)
PICTURES := $(LISTS:examples/%.json=out/%.pnm)
VERSION := $(shell cat VERSION)
SHARED := libtrirast.so.2
# The levels of x86-64; the second as glibc's loader names the folder in which it looks for it by itself.
FIRST_LEVEL := x86-64-v2
LEVEL := x86-64-v3
# The program as it is installed: a stub, and the program itself for each level.
STUB := lib/stub/trirast
PROGRAMS := $(foreach level,$(FIRST_LEVEL) $(LEVEL),lib/$(level)/program.so)
LIBRARY_x86_64 := lib/libtrirast.a lib/libtrirast.so lib/$(LEVEL)/$(SHARED) lib/load.so lib/trirast.pc
LIBRARY_aarch64 := lib/aarch64/libtrirast.a lib/aarch64/libtrirast.so lib/aarch64/load.so
PROGRAM_x86_64 := $(PROGRAM)
PROGRAM_aarch64 := bin/aarch64/trirast
CMAKE_FILES := trirast-config.cmake trirast-config-version.cmake
HEADERS := trirast.h trirast.hpp trirast_clip.h trirast_clip.hpp trirast_lanes.hpp trirast_shade.h trirast_shade.hpp \
    trirast_frame.hpp trirast_layer.hpp trirast_texture.hpp \
    $(addprefix trirast/,canvas.hpp edges.hpp error.hpp list.hpp polygons.hpp span.hpp state.hpp tile_rows.hpp values.hpp)
# What is installed: the mode of each file, where it lies here, and below PREFIX. And the files that are made there.
INSTALLED := 755:$(STUB):bin/trirast 755:$(WHY):bin/trirast_why \
    755:lib/$(FIRST_LEVEL)/program.so:lib/trirast/program.so \
    755:lib/$(LEVEL)/program.so:lib/trirast/glibc-hwcaps/$(LEVEL)/program.so \
    $(foreach name,trirast trirast_why,644:docs/$(name).1:share/man/man1/$(name).1) \
    $(foreach name,draw-list history,644:docs/$(name).schema.json:share/trirast/$(name).schema.json) \
    $(foreach name,$(HEADERS),644:include/$(name):include/$(name)) \
    644:lib/libtrirast.a:$(LIBDIR)/libtrirast.a \
    $(foreach name,$(SHARED) $(LEVEL)/$(SHARED),755:lib/$(name):$(LIBDIR)/$(if $(findstring /,$(name)),glibc-hwcaps/)$(name))
MADE := $(addprefix $(LIBDIR)/,libtrirast.so pkgconfig/trirast.pc $(addprefix cmake/trirast/,$(CMAKE_FILES)))

MADE_FOLDERS := bin dist lib out bench/out conformance/out web/out

# The checks, each a goal: the names in the list of tools/ci/checks.py.
CHECKS := $(shell sed -n 's/.*\bname="\([a-z-]*\)".*/\1/p' tools/ci/checks.py)

.PHONY: all why look library install uninstall demo pictures packages without-links test test-long prove help races bench frames model conformance \
    conformance-windows clean hostile $(CHECKS)
.DELETE_ON_ERROR:

# ---- To use it

all: $(PROGRAM_$(ARCH))

$(PROGRAM): $(SOURCES)
	@$(KIT)
	$(if $(OVER_RT_CI),,@RT="$(RT)" $(PYTHON) -m tools.prove $(if $(CPU),--cpu $(CPU)) trirast_cli < examples/triangle.json)
	install -D -m 755 crates/trirast_cli/out/trirast_cli $@

why: $(WHY)

$(WHY): $(SOURCES)
	@$(KIT)
	$(if $(OVER_RT_CI),,@RT="$(RT)" $(PYTHON) -m tools.prove trirast_why 0,0 < examples/triangle.json)
	install -D -m 755 crates/trirast_why/out/trirast_why $@

look:
	@$(KIT)
	@mkdir -p out
	@echo "Compiling without any proof. What it draws is not proved; make proves it."
	@cd crates/trirast_cli && $(RT) try < "$(CURDIR)/examples/mesh.json" > "$(CURDIR)/out/look.ppm" 2> "$(CURDIR)/out/look.log" \
	    || { echo "failed: see out/look.log"; exit 1; }
	@if command -v pnmtopng > /dev/null; then pnmtopng out/look.ppm > out/look.png 2> /dev/null && echo "out/look.png"; \
	else echo "out/look.ppm"; fi

out/%.pnm: examples/%.json $(PROGRAM)
	@mkdir -p out
	$(PROGRAM) < $< > $@

demo:
	@$(PACKAGES) demo
	@$(MAKE) --no-print-directory pictures

pictures: $(PICTURES)
	@if command -v pnmtopng > /dev/null; then \
	    for name in $(PICTURES:.pnm=); do pnmtopng $$name.pnm 2> /dev/null > $$name.png || exit 1; done; \
	else echo "pnmtopng is not installed, so there are PPM and PGM pictures only"; fi

library: $(or $(LIBRARY_$(ARCH)),$(error ARCH is x86_64 or aarch64, and not $(ARCH)))

# The library's code with what it calls: a heap over malloc, realloc and free, and of the compiler's own library the division
# of 128 bits. Only trirast_* is left to be seen.
HEAP = "$$(dirname "$$($(RT) doc)")/c/liblibc_c.a"
ARGUMENTS = "$$(dirname "$$($(RT) doc)")/c/libos_c.a"
OBJCOPY = objcopy
ONLY_CALLS = $(OBJCOPY) --wildcard --keep-global-symbol='trirast_*'
OBJECTS := lib/trirast.o lib/$(LEVEL)/trirast.o lib/aarch64/trirast.o
CANVAS_OBJECTS := $(OBJECTS:%/trirast.o=%/canvas.o)
lib/trirast.o: $(ARCHIVE) | lib
lib/canvas.o: $(CANVAS_ARCHIVE) | lib
$(filter-out lib/trirast.o,$(OBJECTS)): %/trirast.o: %/trirast_c.a
$(filter-out lib/canvas.o,$(CANVAS_OBJECTS)): %/canvas.o: %/canvas_c.a
$(OBJECTS): %/trirast.o: %/canvas.o %/calls.o
lib/aarch64/trirast.o: lib/aarch64/heap.o

$(OBJECTS):
	$(LD) -r -o $@ --whole-archive $< --no-whole-archive $(@D)/canvas.o $(@D)/calls.o $(HEAP) "$$($(CC) -print-libgcc-file-name)"
	$(ONLY_CALLS) $@

# The calls of a canvas, without a heap. Both archives have the crates on which both stand, so one hides its own before they meet.
$(CANVAS_OBJECTS):
	$(LD) -r -o $@ --whole-archive $<
	$(ONLY_CALLS) $@

# The inline functions of the header.
$(OBJECTS:%/trirast.o=%/calls.o): packaging/calls.c include/trirast.h
	@mkdir -p $(@D)
	$(CC) -std=c99 -O2 -fPIC -Wall -Wextra -Wpedantic -Werror -Iinclude -c -o $@ $<

$(ARCHIVE) $(CANVAS_ARCHIVE): crates/%: $(SOURCES)
	@$(KIT)
	$(if $(OVER_RT_CI),$(PYTHON) -m tools.packaging.archive $(@F:lib%.a=%) x86-64-v2 --module $(MODULE) --rt $(RT) -o $@,\
	    cd $(@D:%/out=%) && $(RT) lib)
	touch $@ $(if $(OVER_RT_CI),$(MODULE))

# The LLVM module of which an archive was made; `make platforms` builds from it.
$(ARCHIVE) $(CANVAS_ARCHIVE): MODULE = lib/modules/$(FIRST_LEVEL)/$(@F:lib%.a=%).ll
lib/aarch64/trirast_c.a lib/aarch64/canvas_c.a: MODULE = lib/modules/aarch64/$(@F:.a=.ll)

# The same proved crates for another processor, over what rt lib has kept.
CORES := $(foreach folder,lib/$(LEVEL) lib/aarch64,$(folder)/trirast_c.a $(folder)/canvas_c.a)
$(filter %/trirast_c.a,$(CORES)): $(ARCHIVE)
$(filter %/canvas_c.a,$(CORES)): $(CANVAS_ARCHIVE)
$(CORES):
	@mkdir -p $(@D)
	$(PYTHON) -m tools.packaging.archive $(basename $(@F)) $(notdir $(@D)) $(MODULE:%=--module %) --rt $(RT) -o $@

# For ARM64 the tools of a cross compiler, and a heap in C: the toolchain's own is for x86-64.
CROSS = aarch64-linux-gnu-
lib/aarch64/%: CC = $(CROSS)gcc
lib/aarch64/%: LD = $(CROSS)ld
lib/aarch64/%: AR = $(CROSS)ar
lib/aarch64/%: OBJCOPY = $(CROSS)objcopy
lib/aarch64/%: HEAP = lib/aarch64/heap.o

lib/aarch64/heap.o lib/aarch64/arguments.o: lib/aarch64/%.o: packaging/%.c
	@mkdir -p $(@D)
	$(CC) -std=c11 -O2 -fPIC -Wall -Wextra -Wpedantic -Werror -c -o $@ $<

# The program for another processor or to be installed, over what was proved for $(PROGRAM).
$(PROGRAMS:%/program.so=%/trirast_cli.o) lib/aarch64/trirast_cli.o: lib/%/trirast_cli.o: $(PROGRAM)
	@mkdir -p $(@D)
	$(PYTHON) -m tools.packaging.archive trirast_cli $* --rt $(RT) -o $@

# The installed program as a library, so that the loader takes the one for the processor's level. Only main is left to be seen.
$(PROGRAMS): %/program.so: %/trirast_cli.o
	$(CC) -shared -s -Wl,-soname,program.so -Wl,--gc-sections,--exclude-libs,ALL -Wl,-z,defs,-z,now -o $@ $< $(ARGUMENTS) $(HEAP)

# The stub has no code but that of the C library, which calls main. It finds program.so from its own place.
$(STUB): lib/$(FIRST_LEVEL)/program.so
	@mkdir -p $(@D)
	$(CC) -s -o $@ $< '-Wl,-z,now,-rpath,$$ORIGIN/../lib/trirast'

# The program for ARM64, with the heap, its arguments and errno in C.
$(PROGRAM_aarch64): $(addprefix lib/aarch64/,trirast_cli.o heap.o arguments.o)
	@mkdir -p $(@D)
	$(CROSS)gcc -pthread -o $@ $^

$(OBJECTS:%/trirast.o=%/libtrirast.a): %/libtrirast.a: %/trirast.o
	rm -f $@
	$(AR) rcs $@ $<

$(OBJECTS:%/trirast.o=%/$(SHARED)): %/$(SHARED): %/trirast.o
	$(CC) -shared -s -Wl,-soname,$(SHARED) -Wl,--gc-sections -Wl,-z,defs -o $@ $<

$(OBJECTS:%/trirast.o=%/libtrirast.so): %/libtrirast.so: %/$(SHARED)
	ln -sf $(SHARED) $@

# What Python loads, here and in a wheel: it holds nothing and needs the library beside it, so that the loader takes the one for the
# processor's level.
lib/load.so lib/aarch64/load.so: %/load.so: %/$(SHARED)
	$(CC) -shared -nostdlib -s -Wl,--build-id=none,-z,noexecstack -o $@ -Wl,--no-as-needed $< '-Wl,-rpath,$$ORIGIN'

lib/load.so: lib/glibc-hwcaps/$(LEVEL)/$(SHARED)
lib/glibc-hwcaps/$(LEVEL)/$(SHARED): lib/$(LEVEL)/$(SHARED)
	@mkdir -p $(@D)
	ln -sf ../../$(LEVEL)/$(SHARED) $@

lib/trirast.pc: Makefile VERSION | lib
	$(file >$@,$(PACKAGE))

lib:
	mkdir lib

define PACKAGE
prefix=$(CURDIR)
includedir=$${prefix}/include
libdir=$${prefix}/lib

Name: trirast
Description: triangles drawn to PPM and PGM pictures, proved byte for byte
Version: $(VERSION)
Cflags: -I$${includedir}
Libs: -L$${libdir} -ltrirast
endef

define INSTALL
install -D -m $(word 1,$1) $(word 2,$1) "$(DESTDIR)$(PREFIX)/$(word 3,$1)"

endef

install: $(STUB) $(PROGRAMS) $(WHY) $(LIBRARY_x86_64)
	$(foreach file,$(INSTALLED),$(call INSTALL,$(subst :, ,$(file))))
	ln -sf $(SHARED) "$(DESTDIR)$(PREFIX)/$(LIBDIR)/libtrirast.so"
	install -d $(foreach folder,pkgconfig cmake/trirast,"$(DESTDIR)$(PREFIX)/$(LIBDIR)/$(folder)")
	sed -e 's|^prefix=.*|prefix=$(PREFIX)|' -e 's|^libdir=.*|libdir=$${prefix}/$(LIBDIR)|' \
	    lib/trirast.pc > "$(DESTDIR)$(PREFIX)/$(LIBDIR)/pkgconfig/trirast.pc"
	for name in $(CMAKE_FILES); do sed -e 's|@VERSION@|$(VERSION)|' \
	    -e "s|@PREFIX_FROM_HERE@|$$(realpath -ms --relative-to=/$(LIBDIR)/cmake/trirast /)|" \
	    packaging/cmake/$$name > "$(DESTDIR)$(PREFIX)/$(LIBDIR)/cmake/trirast/$$name" || exit 1; done

uninstall:
	@for name in $(foreach file,$(INSTALLED),$(word 3,$(subst :, ,$(file)))) $(MADE); do rm -fv "$(DESTDIR)$(PREFIX)/$$name"; done
	@rmdir $(foreach folder,share/trirast include/trirast $(foreach place,lib/trirast $(LIBDIR),$(place)/glibc-hwcaps/$(LEVEL) $(place)/glibc-hwcaps) \
	    lib/trirast $(LIBDIR)/cmake/trirast $(LIBDIR)/cmake, \
	    "$(DESTDIR)$(PREFIX)/$(folder)") 2> /dev/null || true

include packaging/web.mk
include packaging/platforms.mk

clean:
	rm -rf $(MADE_FOLDERS) .mypy_cache

help:
	@sed -n '/^[^#]/q; s/^# \?//p' Makefile
	@echo "The checks of make test:"
	@$(PYTHON) -m tools.ci.checks

# ---- To test what was built

test:
	@$(PACKAGES) test
	@$(MAKE) --no-print-directory --question $(PROGRAM) library || $(KIT)
	@$(PYTHON) -m tools.ci.run_checks

test-long:
	@$(PACKAGES) test
	@$(PYTHON) -m tools.ci.run_checks --long

WAIT = -o DPkg::Lock::Timeout=300
packages:
	@lacking="$$($(PYTHON) -m tools.packages --lacking)"; test -z "$$lacking" || { set -x; apt-get $(WAIT) update -q && \
	    DEBIAN_FRONTEND=noninteractive apt-get $(WAIT) install -y -q --no-install-recommends $$lacking; }

$(CHECKS):
	@$(PYTHON) -m tools.ci.run_checks $@ $(if $(LONG),--long)

hostile: fault-injection

$(TILES): $(SOURCES)
	@$(KIT)
	$(if $(OVER_RT_CI),,cd crates/refused_tiles && $(RT) run < stdin > /dev/null)
	install -D -m 755 crates/refused_tiles/out/refused_tiles $@

$(READER): $(SOURCES)
	@$(KIT)
	$(if $(OVER_RT_CI),,cd crates/list_bench && $(RT) run < "$(CURDIR)/examples/triangle.json" > /dev/null)
	install -D -m 755 crates/list_bench/out/list_bench $@

races: $(PROGRAM)
	$(PYTHON) -m pytest tests/program/races.py

conformance: $(PROGRAM) $(RASTERIZE_$(DEVICE))
	@mkdir -p out
	$(if $(RASTERIZE_$(DEVICE)),$(PYTHON) -m conformance.$(DEVICE).run --device "$(ADAPTER)" --html out/conformance-$(DEVICE).html,\
	    $(PYTHON) -m conformance.run --html out/conformance.html)

$(RASTERIZE): $(wildcard conformance/rasterize/* conformance/d3d11/rasterize/*)
	@mkdir -p $(@D)
	$(WINDOWS_CXX) -std=c++17 -O2 -Wall -Wextra -static -s -I conformance/rasterize -o $@ conformance/d3d11/rasterize/main.cpp -ld3d11 -ldxgi

conformance-windows: $(RASTERIZE) conformance/out/rasterize-vulkan.exe
	$(PYTHON) -m conformance.d3d11.windows dist/trirast-conformance-windows.zip

include conformance/vulkan/rasterize.mk

# ---- To prove it

# rt ci takes no links below the top. Those that make and its checks leave are made anew when they are needed.
without-links:
	@$(foreach folder,$(wildcard $(MADE_FOLDERS)),find $(folder) -type l -delete;)

prove: without-links
	@$(KIT)
	$(RT) ci

# ---- To measure it

frames: $(PROGRAM)
	cd crates/frames && $(RT) run $(if $(CPU),--cpu $(CPU)) < "$(CURDIR)/examples/triangle.json" > /dev/null
	install -D -m 755 crates/frames/out/frames $(FRAMES)

model: $(MODEL)

$(MODEL): bench/draw_list.hpp $(wildcard bench/model/*)
	@mkdir -p $(@D)
	$(CXX) -std=c++17 -O3 -march=x86-64-v2 -Wall -Wextra -pthread -o $@ bench/model/main.cpp

bench: $(PROGRAM)
	$(PYTHON) -m bench.run

# ---- To package it

include packaging/packages.mk
