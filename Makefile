# Builds and installs the library; `rt` builds and proves the crates themselves.
#
#     make                 the archive and the shared library, in target/staticlib
#     make target/staticlib/libhits.a    what bench/run measures
#     make test            the bindings' tests: C, Rust, Python
#     make install         the library, header, pkg-config file and Python package
#     make uninstall       takes these away again: name the same folders
#     make clean           takes away what make, cargo and the tests built; proofs stay
#     make help            this text
#
# The folders, as `make install PREFIX=$HOME/.local`; each may have blanks, and be
# named from this one:
#
#     PREFIX      /usr/local
#     LIBDIR      PREFIX/lib
#     INCLUDEDIR  PREFIX/include
#     PYTHONDIR   where python3 looks for packages in PREFIX/lib, else
#                 PREFIX/lib/python3/dist-packages
#     DESTDIR     laid before all of these, to pack what is installed elsewhere later

PREFIX ?= /usr/local
DESTDIR ?=
LIBDIR ?= $(PREFIX)/lib
INCLUDEDIR ?= $(PREFIX)/include
PYTHONDIR ?=
CC ?= cc
OUT = target/staticlib
# The header has the version. Structs change between versions 0.x, so a program finds its library by both numbers.
number = $(shell awk '$$2 == "TM_VERSION_$(1)" { print $$3 }' include/tokenmarsh.h)
VERSION := $(call number,MAJOR).$(call number,MINOR).$(call number,PATCH)
SONAME := libtokenmarsh.so.$(call number,MAJOR).$(call number,MINOR)

# A shell takes these from its environment, since a name that make writes into a command falls apart at its blanks.
export PREFIX DESTDIR LIBDIR INCLUDEDIR PYTHONDIR VERSION SONAME

.PHONY: all test install uninstall clean help

all: $(OUT)/libtokenmarsh.so

# rt lib proves what a library stands on, one crate after another, then the library, and compiles it; what is proved already it takes as it is.
$(OUT)/lib%.a: crates.txt $(shell find crates -name out -prune -o '(' -name '*.rt' -o -name '*.antt' ')' -print)
	cd crates/$* && rt lib
	mkdir -p $(OUT)
	cp crates/$*/out/lib$*.a $@

$(OUT)/libtokenmarsh.so: $(OUT)/libtokenmarsh.a include/tokenmarsh.h
	$(CC) -shared -o $@ -Wl,-soname,$(SONAME) -Wl,--whole-archive $< -Wl,--no-whole-archive

test: all
	bindings/test

install: all
	bindings/install

uninstall:
	bindings/install --remove

clean:
	rm -rf $(OUT) target/bindings target/compare target/bench target/example target/find target/ten bindings/rust/target compare/target bench/target
	rm -rf bindings/python/__pycache__ bindings/python/tokenmarsh/__pycache__ compare/__pycache__

help:
	@sed -n '/^#/!q; s/^# \{0,1\}//p' Makefile
