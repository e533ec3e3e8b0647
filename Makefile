# The C side: all, check, install PREFIX=... . ARCHIVE is the proved archive, as `rt lib` leaves it in crates/zonealloc. With the toolchain
# also: targets, the archive for kernels and other processors, in build/targets; dist, a tarball that wants no toolchain.
ARCHIVE = crates/zonealloc/out/libzonealloc.a
PREFIX = /usr/local
CFLAGS = -O2 -std=c99 -Wall -Wextra -Wpedantic
LIBRARIES = build/libzonealloc.a build/libzonealloc_malloc.a
HEADERS = include/zonealloc.h include/zonealloc_threads.h include/zonealloc_memory.h

all: $(LIBRARIES) build/zonealloc.pc

build/libzonealloc.a: $(ARCHIVE)
	mkdir -p build && cp $(ARCHIVE) $@
$(ARCHIVE):
	@echo "make: there is no archive $@. With the toolchain of the README, 'cd crates/zonealloc && rt lib' builds it" >&2; exit 1
build/libzonealloc_malloc.a: c/zonealloc_malloc.c
	mkdir -p build && $(CC) $(CFLAGS) -Iinclude -fPIC -c $< -o build/zonealloc_malloc.o && $(AR) rcs $@ build/zonealloc_malloc.o
build/zonealloc.pc: zonealloc.pc.in
	mkdir -p build && sed 's|@PREFIX@|$(PREFIX)|' $< > $@

targets:
	tools/targets
dist:
	tools/dist
check: all
	tests/c/run $(ARCHIVE)
install: all
	install -d $(DESTDIR)$(PREFIX)/include $(DESTDIR)$(PREFIX)/lib/pkgconfig $(DESTDIR)$(PREFIX)/lib/cmake/zonealloc
	install -m 644 $(HEADERS) $(DESTDIR)$(PREFIX)/include
	install -m 644 $(LIBRARIES) $(DESTDIR)$(PREFIX)/lib
	install -m 644 build/zonealloc.pc $(DESTDIR)$(PREFIX)/lib/pkgconfig
	install -m 644 cmake/zonealloc-config.cmake cmake/zonealloc-config-version.cmake $(DESTDIR)$(PREFIX)/lib/cmake/zonealloc
clean:
	rm -rf build
.PHONY: all targets dist check install clean build/libzonealloc.a build/zonealloc.pc
