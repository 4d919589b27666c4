# The page of web/ with the canvas for WebAssembly, in web/out. The Makefile includes this file, and says of each target
# what it is for.

.PHONY: web

PAGE := $(patsubst web/%,web/out/%,$(wildcard web/*.*))
# At least TRIRAST_STACK of include/trirast.h.
WEB_STACK := 262144

web: web/out/canvas.wasm.gz web/out/examples.json.gz $(PAGE)

$(PAGE): web/out/%: web/%
	install -D -m 644 $< $@

web/out/canvas.wasm.gz: lib/wasm64/canvas.wasm tests/web/module.py
	@mkdir -p $(@D)
	$(PYTHON) -m tests.web.module $< $@

lib/wasm64/canvas.wasm: lib/wasm64/canvas_c.a
	kit="$$(dirname "$$($(RT) doc)")" && "$$kit/bin/rattle-link" --target wasm64-unknown-unknown \
	    --toolchain "$$kit/toolchain" --stack $(WEB_STACK) -o $@ $<

lib/wasm64/canvas_c.a: $(CANVAS_ARCHIVE)
	@mkdir -p $(@D)
	$(PYTHON) -m tools.packaging.archive canvas_c wasm64 --rt $(RT) -o $@

web/out/examples.json.gz: $(LISTS) examples/README.md tests/web/examples.py
	@mkdir -p $(@D)
	$(PYTHON) -m tests.web.examples $@
