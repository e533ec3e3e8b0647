/* Stands before the C library's allocator (LD_PRELOAD), and refuses one growth of memory: the one of the number that REFUSED_GROWTH has,
 * where it has one; the first is 1. Growths of the C library itself, as for a thread, have their numbers too. When the process ends it
 * writes a line to the file descriptor that GROWTHS_TO names:
 *
 *     asked A growths G releases R
 *
 * A growths were asked for in all. G that the program itself asked for were granted, and R blocks it gave back; what the C library keeps
 * for itself is in neither. A block that is made longer is one growth and one release. */
#define _GNU_SOURCE
#include <errno.h>
#include <link.h>
#include <malloc.h>
#include <stdio.h>
#include <stdlib.h>
#include <unistd.h>

/* glibc's own names of its functions: dlsym would allocate. */
extern void *__libc_malloc(size_t);
extern void *__libc_calloc(size_t, size_t);
extern void *__libc_realloc(void *, size_t);
extern void __libc_free(void *);

static unsigned long asked, growths, releases, refused;
static char *from, *to;

/* The first object is the program. */
static int note_program(struct dl_phdr_info *told, size_t size, void *data)
{
    (void)size, (void)data;
    for (int i = 0; i < told->dlpi_phnum; i++) {
        const ElfW(Phdr) *part = &told->dlpi_phdr[i];
        char *begin = (char *)(told->dlpi_addr + part->p_vaddr);
        if (part->p_type != PT_LOAD)
            continue;
        if (!from || begin < from)
            from = begin;
        if (begin + part->p_memsz > to)
            to = begin + part->p_memsz;
    }
    return 1;
}

__attribute__((constructor)) static void begin(void)
{
    const char *number = getenv("REFUSED_GROWTH");
    refused = number ? strtoul(number, NULL, 10) : 0;
    dl_iterate_phdr(note_program, NULL);
}

static void tell(void)
{
    const char *number = getenv("GROWTHS_TO");
    char line[100];
    int size = snprintf(line, sizeof line, "asked %lu growths %lu releases %lu\n", asked, growths, releases);
    if (number && write(atoi(number), line, size) != size)
        _Exit(3);
}

__attribute__((destructor)) static void end(void)
{
    tell();
}

/* So a program with threads ends, which runs no destructor. */
void _exit(int status)
{
    tell();
    _Exit(status);
}

static int is_refused(void)
{
    int is_it = __atomic_add_fetch(&asked, 1, __ATOMIC_SEQ_CST) == refused;
    if (is_it)
        errno = ENOMEM;
    return is_it;
}

/* Counts for the program alone. */
static void count(unsigned long *counter, void *block, char *caller)
{
    if (block && from <= caller && caller < to)
        __atomic_add_fetch(counter, 1, __ATOMIC_SEQ_CST);
}

#define CALLER __builtin_extract_return_addr(__builtin_return_address(0))

void *malloc(size_t size)
{
    void *block = is_refused() ? NULL : __libc_malloc(size);
    count(&growths, block, CALLER);
    return block;
}

void *calloc(size_t many, size_t size)
{
    void *block = is_refused() ? NULL : __libc_calloc(many, size);
    count(&growths, block, CALLER);
    return block;
}

void *realloc(void *block, size_t size)
{
    if (block && size <= malloc_usable_size(block))
        return __libc_realloc(block, size);
    void *longer = is_refused() ? NULL : __libc_realloc(block, size);
    count(&growths, longer, CALLER);
    if (longer)
        count(&releases, block, CALLER);
    return longer;
}

void free(void *block)
{
    count(&releases, block, CALLER);
    __libc_free(block);
}
