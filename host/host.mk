# The host side: the library's header, its tests in C and Rust, and the
# example; the other rooms of host/ have files of their own, which are
# included below. Included by the Makefile at the root, where every recipe runs.
# All products go under target/.

# The folder of liblagunedo.a and libprobe.a. One named here instead has to be
# an absolute path, since cargo runs its build scripts elsewhere.
LAGUNEDO_STATICLIB ?= target/staticlib

HOST_OUT := target/host
HOST_LIBRARY := $(LAGUNEDO_STATICLIB)/liblagunedo.a
HOST_HEADER := host/include/lagunedo.h
HOST_CFLAGS := -std=c99 -O2 -Wall -Wextra -Wpedantic -Wconversion -Werror
HOST_CXXFLAGS := -std=c++11 -O2 -Wall -Wextra -Wpedantic -Werror
HOST_CARGO := CARGO_TARGET_DIR=target/cargo cargo
HOST_CARGO_FLAGS := --release --offline --locked --manifest-path host/rust/Cargo.toml

.PHONY: host-c host-header host-example host-rust host-trace

host-c: $(HOST_OUT)/test host-header
	$(HOST_OUT)/test

# The versions of C and C++ that the header says it needs, and later ones: compiled only, and nothing is warned of.
host-header:
	for std in c99 c11 c17; do $(CC) $(HOST_CFLAGS) -std=$$std -Ihost/include -fsyntax-only host/c/example.c || exit 1; done
	for std in c++11 c++14 c++17 c++20; do $(CXX) $(HOST_CXXFLAGS) -std=$$std -Ihost/include -fsyntax-only host/c/header.cpp || exit 1; done

host-example: $(HOST_OUT)/example
	$(HOST_OUT)/example

# The archives are rebuilt by the proof tool; cargo looks at them itself.
host-rust:
	$(HOST_CARGO) test $(HOST_CARGO_FLAGS)

# One random trace of the store again: LAGUNEDO_TRACE is the seed that it
# printed when it failed.
host-trace:
	$(HOST_CARGO) test $(HOST_CARGO_FLAGS) --package lagunedo --test traces alone -- --ignored

$(HOST_LIBRARY):
	@echo "$@ is not there: make builds it" >&2; exit 1

# One program out of the files of its rooms.
HOST_TESTS := $(wildcard host/c/test*.c) host/c/fill.c host/c/record.c
HOST_TEST_HEADERS := $(addprefix host/c/,check.h fill.h lent.h record.h)

$(HOST_OUT)/test: $(HOST_TESTS) $(HOST_TEST_HEADERS) $(HOST_HEADER) $(HOST_LIBRARY)
	@mkdir -p $(HOST_OUT)
	$(CC) $(HOST_CFLAGS) -Ihost/include -o $@ $(HOST_TESTS) $(HOST_LIBRARY)

$(HOST_OUT)/example: host/c/example.c $(HOST_HEADER) $(HOST_LIBRARY)
	@mkdir -p $(HOST_OUT)
	$(CC) $(HOST_CFLAGS) -Ihost/include -o $@ $< $(HOST_LIBRARY)

include host/desk.mk
include host/install.mk
include host/secret.mk
include host/lessons.mk
include host/dist.mk
include host/fuzz.mk
include host/peers/peers.mk
