# The archive of a target out of its text, and what goes with it: all, check, install PREFIX=... . No prover and no network, any C compiler.
# TARGET is this machine, or a name of asm/*.s: with another processor's CC, and RUN=qemu-... for check. A kernel links the archive alone.
TARGET = $(shell uname -m)
PREFIX = /usr/local
CFLAGS = -O2 -std=c99 -Wall -Wextra -Wpedantic
OUT = build/targets/$(TARGET)
ARCHIVE = $(OUT)/libzonealloc.a
MALLOC = $(OUT)/libzonealloc_malloc.a
LIBRARIES = $(ARCHIVE) $(MALLOC)
LINKED = $(CC) $(CFLAGS) -Iinclude $(LDFLAGS)
TESTS = wrong_calls bytes types runs lists rest busy against_reference pool threads machine memory_map

all: $(LIBRARIES) build/zonealloc.pc

$(ARCHIVE): asm/$(TARGET).s
	mkdir -p $(OUT) && $(CC) $(ASFLAGS) -c asm/$(TARGET).s -o $(OUT)/zonealloc.o && rm -f $@ && $(AR) rcs $@ $(OUT)/zonealloc.o
$(MALLOC): c/zonealloc_malloc.c
	mkdir -p $(OUT) && $(CC) $(CFLAGS) -Iinclude -fPIC -c c/zonealloc_malloc.c -o $(OUT)/zonealloc_malloc.o && $(AR) rcs $@ $(OUT)/zonealloc_malloc.o
build/zonealloc.pc: zonealloc.pc.in
	mkdir -p build && sed 's|@PREFIX@|$(PREFIX)|' zonealloc.pc.in > $@

$(OUT)/wrong_calls $(OUT)/bytes: $(OUT)/%: tests/c/%.c $(ARCHIVE)
	$(LINKED) tests/c/$*.c $(ARCHIVE) -o $@
$(OUT)/against_reference: tests/c/against_reference.c tests/c/reference.c $(LIBRARIES)
	$(LINKED) tests/c/against_reference.c tests/c/reference.c $(LIBRARIES) -o $@
$(OUT)/rest: tests/c/rest.c tests/c/rest_threads.c $(LIBRARIES)
	$(LINKED) tests/c/rest.c tests/c/rest_threads.c $(LIBRARIES) -pthread -o $@
$(OUT)/types $(OUT)/runs $(OUT)/lists $(OUT)/busy: $(OUT)/%: tests/c/%.c $(LIBRARIES)
	$(LINKED) tests/c/$*.c $(LIBRARIES) -pthread -o $@
$(OUT)/pool $(OUT)/threads $(OUT)/machine $(OUT)/memory_map: $(OUT)/%: examples/%.c $(LIBRARIES)
	$(LINKED) examples/$*.c $(LIBRARIES) -pthread -o $@

check: all $(TESTS:%=$(OUT)/%)
	@for it in $(TESTS); do $(RUN) $(OUT)/$$it || { echo "FAILED: $$it"; exit 1; }; done
	@echo "$(words $(TESTS)) passed, 0 failed"
install: all
	install -d $(DESTDIR)$(PREFIX)/include $(DESTDIR)$(PREFIX)/lib/pkgconfig $(DESTDIR)$(PREFIX)/lib/cmake/zonealloc
	install -m 644 include/*.h $(DESTDIR)$(PREFIX)/include
	install -m 644 $(LIBRARIES) $(DESTDIR)$(PREFIX)/lib
	install -m 644 build/zonealloc.pc $(DESTDIR)$(PREFIX)/lib/pkgconfig
	install -m 644 cmake/*.cmake $(DESTDIR)$(PREFIX)/lib/cmake/zonealloc
clean:
	rm -rf build
.PHONY: all check install clean build/zonealloc.pc
