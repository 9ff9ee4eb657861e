# make lib       build/libayresokum.a, and build/libayresokum.so, a link to the shared library of the header's version
# make demo      a temper-colour ramp converted, checked, spoiled and checked again
# make examples  the programs of examples/, and the header as C99 and as C++17
# make outputs   what the programs have to print, worked out afresh from document 01 (compare/*.py)
# make test      the examples, the declarations of the exported functions held against each other, the calls from Python, the programs'
#                outputs, and the tests of the Rust crate where cargo is there
# make rounding  bench/rounding: the time of one rounding of a float weight and of one settle, with BEFORE=FOLDER also of the repository in
#                FOLDER, where make lib was run; then every float
# make x86-64    on a machine of another kind, what builds and runs x86-64 programs, from Debian's packages; as root
# All but outputs and x86-64 need the Rattle kit (rt) and a C compiler.
CC ?= cc
CXX ?= c++
PYTHON = python3
# The library is x86-64 code. On a machine of another kind its callers are built by cross compilers and run by an emulator, with the C library,
# Python and Rust's library for x86-64 from the folder X86_64.
ifneq ($(shell uname -m),x86_64)
X86_64 ?= $(or $(XDG_CACHE_HOME),$(HOME)/.cache)/ayresokum/x86-64
CC = x86_64-linux-gnu-gcc
CXX = x86_64-linux-gnu-g++
RUN = qemu-x86_64 -L $(X86_64)
PYTHON = $(RUN) $(X86_64)/usr/bin/python3
export RUSTC = /usr/bin/rustc
export RUSTDOC = /usr/bin/rustdoc
export RUSTFLAGS = --sysroot=$(X86_64)/usr
export RUSTDOCFLAGS = $(RUSTFLAGS)
export CARGO_BUILD_TARGET = x86_64-unknown-linux-gnu
export CARGO_TARGET_X86_64_UNKNOWN_LINUX_GNU_LINKER = $(CC)
export CARGO_TARGET_X86_64_UNKNOWN_LINUX_GNU_RUNNER = $(RUN)
endif
STRICT = -Wall -Wextra -pedantic -Werror
RULES = $(shell find crates -name out -prune -o '(' -name '*.rt' -o -name '*.antt' ')' -print) crates.txt
SHARED := libayresokum.so.$(shell awk '/define AYRESOKUM_VERSION/ { print $$3 }' include/ayresokum.h)

.PHONY: x86-64 cargo-variables lib demo examples outputs output-settings output-frames output-checks output-ring output-windows output-rgb output-exports calls rust test rounding FORCE clean

x86-64:
	.ci/x86-64 "$(X86_64)"

# What cargo is told above, as lines for a shell; on x86-64 none.
cargo-variables:
	@env | sed -n "s/^\(RUST[A-Z]*\|CARGO_BUILD_TARGET\|CARGO_TARGET_X86_64_[A-Z_]*\)=\(.*\)/export \1='\2'/p"

lib: build/libayresokum.a build/libayresokum.so

build/libayresokum.a: $(RULES)
	mkdir -p build
	(cd crates/ayresokum_c && rt lib) > build/library.log 2>&1 || (cat build/library.log; false)
	cp crates/ayresokum_c/out/libayresokum_c.a $@

build/$(SHARED): build/libayresokum.a
	$(CC) -shared -o $@ -Wl,--whole-archive $< -Wl,--no-whole-archive -Wl,-soname,$(SHARED)

build/libayresokum.so: build/$(SHARED)
	ln -sf $(SHARED) $@

build/%.so: compare/stubs/%.c include/ayresokum.h
	mkdir -p build
	$(CC) -std=c99 $(STRICT) -Iinclude -shared -fPIC -o $@ $<

build/%: examples/%.c include/ayresokum.h build/libayresokum.a
	$(CC) -std=c99 -O2 $(STRICT) -Iinclude -o $@ $< build/libayresokum.a

demo: build/demo
	@$(RUN) build/demo

examples: build/demo build/whole_frame
	$(CC) -std=c99 $(STRICT) -fsyntax-only -x c include/ayresokum.h
	$(CXX) -std=c++17 $(STRICT) -fsyntax-only -x c++ include/ayresokum.h
	$(RUN) build/whole_frame | cmp - examples/whole_frame.txt
	$(RUN) build/demo | cmp - examples/demo.txt

outputs: output-settings output-frames output-checks output-ring output-windows output-rgb output-exports

output-settings:
	python3 compare/settings.py crates/run_settings/stdout

output-frames:
	python3 compare/frames.py crates/run_frames/stdout

output-checks:
	python3 compare/checks.py crates/run_checks/stdout crates/run_edges/stdout

output-ring:
	python3 compare/ring.py crates/run_ring/stdout

output-windows:
	python3 compare/windows.py crates/run_windows/stdout

output-rgb:
	python3 compare/rgb.py crates/run_rgb/stdout

output-exports:
	python3 compare/exports.py crates/run_exports/stdout

calls: build/libayresokum.so build/other_version.so build/no_version.so build/version_alone.so
	python3 compare/boundary.py
	$(PYTHON) compare/calls.py

rust: build/libayresokum.a build/libayresokum.so
	! command -v cargo > /dev/null || (cd rust && AYRESOKUM_LIB=$(CURDIR)/build cargo test --offline --release)

test: rust examples outputs calls

# The time of one rounding by itself: a library of its own, made from this repository and from BEFORE.
build/rounding/now.a: $(RULES)
	mkdir -p $(@D)
	(cd crates/round_weight && rt lib) > build/rounding/now.log 2>&1 || (cat build/rounding/now.log; false)
	cp crates/round_weight/out/libround_weight.a $@

# BEFORE may name another folder than the last time, so this one is always made anew; its proofs are kept.
build/rounding/before.a: FORCE
	mkdir -p $(@D)
	bench/rounding/build.sh $(BEFORE) > build/rounding/before.log 2>&1 || (cat build/rounding/before.log; false)
	cp target/rounding/crates/round_weight/out/libround_weight.a $@

build/rounding/%.so: build/rounding/%.a
	$(CC) -shared -o $@ -Wl,--whole-archive $< -Wl,--no-whole-archive

build/rounding/program: bench/rounding/rounding.c include/ayresokum.h
	mkdir -p $(@D)
	$(CC) -std=c99 -O2 $(STRICT) -Iinclude -o $@ $< -ldl

rounding: build/rounding/program build/rounding/now.so build/libayresokum.so $(if $(BEFORE),build/rounding/before.so)
	$(RUN) build/rounding/program $(if $(BEFORE),before build/rounding/before.so $(BEFORE)/build/libayresokum.so) now build/rounding/now.so build/libayresokum.so

FORCE:

clean:
	rm -rf build
