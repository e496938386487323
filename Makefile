# Builds, tests and installs the library for C, from c/generated, the assembly of the proved library, and three files of C in
# c/src.
# A C compiler and make do; on x86-64 and AArch64 Linux, and for Windows on x86-64 by mingw-w64. CMakeLists.txt builds it on macOS and with
# other compilers of Windows.
#
#   make                                  the archive and the shared library, in c/out
#   make check                            builds and runs the C tests; `make check-sanitized` with the address and
#                                         undefined-behaviour sanitizers
#   make check-plus                       the test of the header for C++, as C++17 and as C++20
#   make check-aarch64                    the C tests for AArch64, by a cross compiler and qemu (Debian: gcc-aarch64-linux-gnu,
#                                         libc6-dev-arm64-cross, qemu-user)
#   make check-windows                    builds the archive and the DLL for Windows, in c/out/windows, and runs the C tests by wine
#                                         (Debian: gcc-mingw-w64-x86-64-win32, wine64)
#   make PLAIN=1                          the same library from plain Rust (rust-c) instead of c/generated, in c/out/plain: for any
#                                         processor that rustc knows. RUST_TARGET=TRIPLE for another one than the machine's,
#                                         RUST_FEATURES=unproved-width for one without 64 bits. Each command above works so too
#   make example, make loopback           builds and runs the header's example; a stream of VP8 over UDP with losses
#   make install PREFIX=/usr DESTDIR=..   headers, both libraries, codec-payload.pc, a CMake package, documents, and manual pages
#                                         where `make man` was called
#   make uninstall PREFIX=..
#   make man                              a manual page for each call (Python 3), and pages and HTML of the headers (doxygen), in c/out
#   make dist                             a tarball of all that these commands need
#   make deb                              Debian packages, in c/out, by debhelper: the shared library, what is wanted to build
#                                         against it and, where libpcap and libavformat are there, the recorder
#   make deb-aarch64                      the same for arm64 by the cross compiler, without the recorder
#   make check-install                    installs into a fresh folder and builds against it (packaging/install_test.sh)
#   make clean
#
# CC, CFLAGS, CPPFLAGS and LDFLAGS are yours. `make check LIBRARY=libcodec_payload.a tests=FOLDER` tests another archive.

VERSION := $(shell sed -n 's/^\#define CPAY_VERSION_[MP][A-Z]* //p' include/codec_payload.h | paste -sd.)
PREFIX ?= /usr/local
LIBDIR ?= $(PREFIX)/lib
INCLUDEDIR ?= $(PREFIX)/include
DOCDIR ?= $(PREFIX)/share/doc/codec-payload
MANDIR ?= $(PREFIX)/share/man
DESTDIR ?=
INSTALL ?= install
CFLAGS ?= -O2 -g
# How a program of another architecture is run.
RUN ?=

# PLAIN: the calls come from rust-c, by cargo, and not from the assembly of the proved library.
PLAIN ?=
CARGO ?= cargo
RUST_TARGET ?=
RUST_FEATURES ?=

out = c/out$(if $(PLAIN),/plain)
archive = $(out)/libcodec_payload.a
soname = libcodec_payload.so.0
shared = $(if $(windows),$(out)/codec_payload-0.dll,$(out)/libcodec_payload.so.$(VERSION))
LIBRARY = $(archive)
tests = $(out)/tests
cmake = $(LIBDIR)/cmake/codec-payload
name = codec-payload-$(VERSION)
headers = $(wildcard include/*.h include/*.hpp)
documents = README.md CHANGELOG.md
folders = docs/use docs/proof docs/develop
pages = $(foreach folder,$(folders),$(wildcard $(folder)/*.md))
pictures = $(wildcard docs/pictures/*.svg docs/pictures/*.webp)
manual = $(out)/man/man3
recorder = tools/rtp_record
vectors = crates/payload_vectors
shipped = Makefile include packaging $(documents) $(pages) $(pictures) $(wildcard c/src/*.c c/src/*.h c/generated/*.S) \
    $(wildcard CMakeLists.txt examples/*.c c/tests/*.c c/tests/*.cpp c/tests/*.h c/tests/*.sh c/tests/*.txt c/tests/sdp/*) \
    $(vectors)/stdin $(vectors)/stdout rust/tests/fec_ports/chromium.bin \
    $(addprefix $(recorder)/,Makefile README.md rtp_record.1 completion.bash) $(wildcard $(recorder)/*.c $(recorder)/*.h)
# Without libpcap and libavformat the packages are made without the recorder.
profiles = $(shell pkg-config --exists libpcap libavformat libavcodec libavutil || echo pkg.codec-payload.notools)

# The tools that go with the compiler, and the compiler's architecture, such as x86_64.
OBJCOPY ?= $(shell $(CC) -print-prog-name=objcopy)
ifeq ($(origin AR),default)
AR := $(shell $(CC) -print-prog-name=ar)
endif
machine := $(shell $(CC) -dumpmachine)
architecture := $(firstword $(subst -, ,$(machine)))
windows := $(findstring mingw,$(machine))
assembly = c/generated/$(architecture)-$(if $(windows),windows,linux).S
# Targets of indirect branches are marked, as the assembly marks its own: CET on x86-64, BTI and signed returns on AArch64.
protection_x86_64 = -fcf-protection
protection_aarch64 = -mbranch-protection=standard
warnings = -pedantic -Wall -Wextra -Wconversion
# Each function has a section of its own, as in the assembly. So a program that is linked with --gc-sections has only what it calls.
sections = -ffunction-sections -fdata-sections
compile = $(CC) -std=c99 $(warnings) $(CPPFLAGS) $(CFLAGS) $(if $(windows),,-fPIC) -fno-lto $(sections) $(protection_$(architecture)) -Iinclude

comma := ,

all: $(archive) $(shared)

shared: $(shared)

$(out):
	mkdir -p $@

$(assembly):
	@echo "$(assembly) is not there: your compiler is for $(machine). make PLAIN=1 builds the library from plain Rust" >&2
	@exit 1

$(out)/proved.o: $(assembly) | $(out)
	$(CC) $(CPPFLAGS) -c $(if $(windows),,-Wa$(comma)--noexecstack) $< -o $@

$(out)/%.o: c/src/%.c $(wildcard c/src/*.h) $(headers) | $(out)
	$(compile) -c $< -o $@

# The same calls from plain Rust: the one object of rust-c, without the compiler's own functions, which $(CC) has too.
$(out)/plain.o: $(if $(PLAIN),$(shell find rust/src rust-c/src -name '*.rs')) rust/Cargo.toml rust-c/Cargo.toml | $(out)
	CARGO_TARGET_DIR=$(abspath $(out))/cargo $(CARGO) build --release --offline --quiet --manifest-path rust-c/Cargo.toml \
	    $(if $(RUST_TARGET),--target $(RUST_TARGET)) $(if $(RUST_FEATURES),--features $(RUST_FEATURES))
	$(AR) p $(out)/cargo/$(RUST_TARGET)/release/libcodec_payload_c.a \
	    $$($(AR) t $(out)/cargo/$(RUST_TARGET)/release/libcodec_payload_c.a | grep '^codec_payload_c-') >$@

# One object, whose names for others are the calls of the header alone. GCC's functions of i686 for its own place are shared by all
# objects of a program; they are hidden.
$(out)/codec_payload.o: $(addprefix $(out)/,calls.o objects.o bindings.o sdp.o $(if $(PLAIN),plain.o,proved.o memory.o $(if $(windows),wide.o)))
	$(CC) -r -nostdlib -o $(out)/all.o $^
	$(OBJCOPY) --wildcard --keep-global-symbol='cpay_*' --keep-global-symbol='__x86.get_pc_thunk.*' $(out)/all.o $@

$(archive): $(out)/codec_payload.o
	rm -f $@
	$(AR) rcs $@ $<

ifneq ($(windows),)
$(shared): $(out)/codec_payload.o packaging/codec_payload.def
	$(CC) -shared $(CFLAGS) $(LDFLAGS) $^ -Wl,--out-implib,$(out)/libcodec_payload.dll.a -o $@
else
$(shared): $(out)/codec_payload.o packaging/codec_payload.map
	$(CC) -shared -Wl,-soname,$(soname) -Wl,--version-script=packaging/codec_payload.map -Wl,-z,defs -Wl,-z,noexecstack \
	    $(CFLAGS) $(LDFLAGS) $< -o $@
endif

# The tests and three examples: each is a program over the archive. `strict=-Werror` is how the repository builds them.
programs = $(addprefix $(tests)/,first $(if $(windows),shared,loopback port) \
    checks datagrams lending session history forward waiting congestion paths reports fec rtcp packets values bindings vectors frames oom forward_oom beyond descriptions)

ifneq ($(windows),)
# A program over the DLL, which stands beside it; and the division, which is not a call of the library.
$(tests)/shared: c/tests/checks.c $(shared)
	@mkdir -p $(tests)
	$(CC) -std=c99 $(warnings) $(strict) $(CPPFLAGS) $(CFLAGS) $(LDFLAGS) -Iinclude $< $(out)/libcodec_payload.dll.a -o $@
	cp $(shared) $(tests)

$(tests)/wide: c/tests/wide.c $(out)/wide.o
	@mkdir -p $(tests)
	$(CC) -std=c99 $(warnings) $(strict) $(CPPFLAGS) $(CFLAGS) $(LDFLAGS) $^ -o $@

programs += $(if $(PLAIN),,$(tests)/wide)
endif

vpath %.c c/tests examples
$(tests)/%: %.c $(wildcard c/tests/*.h) $(headers) $(LIBRARY)
	@mkdir -p $(tests)
	$(CC) -std=c99 $(warnings) $(strict) $(CPPFLAGS) $(CFLAGS) $(SANITIZERS) $(LDFLAGS) -Wl,--gc-sections -Iinclude $< $(LIBRARY) $(wrapped) -o $@

$(tests)/oom $(tests)/forward_oom $(tests)/beyond: wrapped = -Wl,--wrap=malloc,--wrap=realloc,--wrap=free

check: $(programs)
	c/tests/check.sh $(tests) $(RUN)

# The header for C++, as two standards; the examples compile as C++ too.
$(tests)/plus%: c/tests/plus.cpp c/tests/check.h $(headers) $(LIBRARY)
	@mkdir -p $(tests)
	$(CXX) -std=c++$* $(warnings) $(strict) $(CPPFLAGS) $(CFLAGS) $(SANITIZERS) $(LDFLAGS) -Iinclude $< $(LIBRARY) -o $@

check-plus: $(tests)/plus17 $(tests)/plus20
	$(RUN) $(tests)/plus17
	$(RUN) $(tests)/plus20
	for it in $(wildcard examples/*.c); do \
	    $(CXX) -std=c++20 -x c++ -Wall $(strict) -Iinclude -fsyntax-only $$it || exit 1; done

check-sanitized:
	$(MAKE) check tests=$(tests)-sanitized SANITIZERS="-fsanitize=address,undefined -fno-sanitize-recover=all"

# gcc and g++ for AArch64, and what runs their programs.
CROSS ?= aarch64-linux-gnu-
cross = CC=$(CROSS)gcc CXX=$(CROSS)g++ AR=$(CROSS)ar OBJCOPY=$(CROSS)objcopy out=c/out/aarch64
check-aarch64:
	$(MAKE) check $(cross) RUN="qemu-aarch64 -L /usr/aarch64-linux-gnu"

check-windows:
	$(MAKE) all check CC=x86_64-w64-mingw32-gcc AR=x86_64-w64-mingw32-ar OBJCOPY=x86_64-w64-mingw32-objcopy out=c/out/windows RUN="$(WINE)"

# What runs programs of Windows. Debian's wine64 has it outside of the path.
WINE ?= env WINEDEBUG=-all $(firstword $(wildcard /usr/lib/wine/wine64) wine)

example: $(tests)/first
	$(RUN) $<

loopback: $(tests)/loopback
	$(RUN) $<

man: $(manual)/codec_payload.h.3

$(manual)/codec_payload.h.3: include/codec_payload.h include/codec_payload_media.h include/codec_payload_sdp.h include/codec_payload_bindings.h packaging/Doxyfile packaging/manual.py
	rm -rf $(out)/man $(out)/html
	mkdir -p $(out)
	(cat packaging/Doxyfile && echo OUTPUT_DIRECTORY = $(out)) | doxygen -
	find $(manual) ! -type d ! -name 'codec_payload*.h.3' -delete
	packaging/manual.py $(manual)

install: all
	$(INSTALL) -d $(DESTDIR)$(INCLUDEDIR) $(DESTDIR)$(LIBDIR)/pkgconfig $(DESTDIR)$(cmake) $(DESTDIR)$(DOCDIR)
	$(INSTALL) -m 644 $(headers) $(DESTDIR)$(INCLUDEDIR)
	$(INSTALL) -m 644 $(archive) $(shared) $(DESTDIR)$(LIBDIR)
	ln -sf $(notdir $(shared)) $(DESTDIR)$(LIBDIR)/$(soname)
	ln -sf $(soname) $(DESTDIR)$(LIBDIR)/libcodec_payload.so
	sed -e 's|@PREFIX@|$(PREFIX)|' -e 's|@LIBDIR@|$(LIBDIR)|' -e 's|@INCLUDEDIR@|$(INCLUDEDIR)|' -e 's|@VERSION@|$(VERSION)|' \
	    packaging/codec-payload.pc.in >$(DESTDIR)$(LIBDIR)/pkgconfig/codec-payload.pc
	sed -e 's|@VERSION@|$(VERSION)|' packaging/codec-payload-config-version.cmake.in \
	    >$(DESTDIR)$(cmake)/codec-payload-config-version.cmake
	$(INSTALL) -m 644 packaging/codec-payload-config.cmake $(DESTDIR)$(cmake)
	$(INSTALL) -m 644 $(documents) $(DESTDIR)$(DOCDIR)
	$(INSTALL) -d $(addprefix $(DESTDIR)$(DOCDIR)/,$(folders) docs/pictures)
	for folder in $(folders); do $(INSTALL) -m 644 $$folder/*.md $(DESTDIR)$(DOCDIR)/$$folder || exit; done
	$(INSTALL) -m 644 $(pictures) $(DESTDIR)$(DOCDIR)/docs/pictures
	if [ -d $(manual) ]; then \
	    $(INSTALL) -d $(DESTDIR)$(MANDIR)/man3 && $(INSTALL) -m 644 $(manual)/* $(DESTDIR)$(MANDIR)/man3; \
	fi

uninstall:
	rm -f $(addprefix $(DESTDIR)$(INCLUDEDIR)/,$(notdir $(headers)))
	rm -f $(DESTDIR)$(LIBDIR)/libcodec_payload.a $(DESTDIR)$(LIBDIR)/libcodec_payload.so \
	    $(DESTDIR)$(LIBDIR)/$(soname) $(DESTDIR)$(LIBDIR)/$(notdir $(shared)) $(DESTDIR)$(LIBDIR)/pkgconfig/codec-payload.pc
	rm -rf $(DESTDIR)$(cmake) $(DESTDIR)$(DOCDIR)
	rm -f $(DESTDIR)$(MANDIR)/man3/cpay_* $(DESTDIR)$(MANDIR)/man3/codec_payload.h.3 \
	    $(DESTDIR)$(MANDIR)/man3/codec_payload_media.h.3 $(DESTDIR)$(MANDIR)/man3/codec_payload_sdp.h.3 \
	    $(DESTDIR)$(MANDIR)/man3/codec_payload_bindings.h.3

dist: | $(out)
	tar -czf $(out)/$(name).tar.gz --transform 's|^|$(name)/|' $(shipped)

# How dpkg-buildpackage is called: for the machine's own architecture.
packages = DEB_BUILD_PROFILES="$(profiles)" dpkg-buildpackage -b -us -uc
deb: dist
	rm -rf $(out)/deb && mkdir -p $(out)/deb
	tar -xzf $(out)/$(name).tar.gz -C $(out)/deb
	cp -r packaging/debian $(out)/deb/$(name)/debian
	sed -e 's|@VERSION@|$(VERSION)|' -e "s|@DATE@|$$(date -R -d @$${SOURCE_DATE_EPOCH:-$$(date +%s)})|" \
	    packaging/debian/changelog.in >$(out)/deb/$(name)/debian/changelog
	rm $(out)/deb/$(name)/debian/changelog.in
	cd $(out)/deb/$(name) && unset MAKEFLAGS MFLAGS && $(packages)
	mv $(out)/deb/*.deb $(out)

# The build's needs are those of the machine, so they are not looked for among packages of the other architecture.
deb-aarch64:
	$(MAKE) deb out=c/out/aarch64 \
	    packages='DEB_BUILD_OPTIONS=nocheck DEB_BUILD_PROFILES="cross nocheck pkg.codec-payload.notools" dpkg-buildpackage -b -us -uc -d -aarm64'

check-install: all
	packaging/install_test.sh

clean:
	rm -rf $(out)

.PHONY: all shared check check-plus check-sanitized check-aarch64 check-windows example loopback man install uninstall dist deb deb-aarch64 check-install clean
