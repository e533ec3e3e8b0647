/* The machine: an x86-64 PC of up to four processors, as qemu has it. The first serial line is the console, and port 0xf4 ends qemu. */

enum { PROCESSORS = 4, RANGES = 64, PAGE = 4096, STACK = 0x4000, START_PAGE = 8, MULTIBOOT = 0x2badb002, PVH = 0x336ec578 };
#define KERNEL      0xffffffff80000000u     /* where the kernel has the first GiB of memory */
#define ALL         0xffff800000000000u     /* where it has all of it */
#define KERNEL_GIBI 0u                      /* of memory, where it is */
#define KERNEL_FROM 0x100u                  /* its own pages */
#define KERNEL_TO   (((uint64_t)(uintptr_t)kernel_end - KERNEL) / PAGE)
#define TABLE(page) ((uint64_t)(page) * PAGE | 3)         /* entries of page tables: a table, and 2 MiB of memory */
#define LEAF(page)  ((uint64_t)(page) * PAGE | 0x83)

/* What the firmware says of memory, in pages: those that are memory as a whole, or something else in part. */
typedef struct range { uint64_t from, to; int is_memory; } range_t;
extern uint8_t kernel_end[], other_start[], other_end[], exceptions[], timer[], spurious[], stacks[];
extern volatile uint32_t n_started;
static range_t ranges[RANGES];
static uint64_t memory_end;
static uint32_t n_ranges;
static const char *words = "";

static inline void out(uint16_t port, uint8_t it) { __asm__ volatile("outb %0, %1" : : "a"(it), "Nd"(port)); }
static inline void out_two(uint16_t port, uint16_t it) { __asm__ volatile("outw %0, %1" : : "a"(it), "Nd"(port)); }
static inline uint8_t in(uint16_t port) { uint8_t it; __asm__ volatile("inb %1, %0" : "=a"(it) : "Nd"(port)); return it; }
static inline void pause(void) { __asm__ volatile("pause"); }
static inline void interrupts_on(void) { __asm__ volatile("sti" : : : "memory"); }
static inline void interrupts_off(void) { __asm__ volatile("cli" : : : "memory"); }
static inline void use_tables(uint64_t page) { __asm__ volatile("movq %0, %%cr3" : : "r"(page * PAGE) : "memory"); }
static inline void *address_of(uint64_t page) { return (void *)(ALL + page * PAGE); }
static inline void apic(uint32_t at, uint32_t it) { *(volatile uint32_t *)(ALL + 0xfee00000 + at) = it; }
static inline void end_interrupt(void) { apic(0xb0, 0); }
/* What a processor has of its own: GS leads to it, and it begins with its own address. */
static inline void *get_own(void) { void *own; __asm__ volatile("movq %%gs:0, %0" : "=r"(own)); return own; }
static inline void set_own(void *own) {
    uint64_t at = (uint64_t)(uintptr_t)own;
    __asm__ volatile("wrmsr" : : "c"(0xc0000101), "a"((uint32_t)at), "d"((uint32_t)(at >> 32)) : "memory");
}

static void print_byte(char it) {
    while (!(in(0x3fd) & 0x20))
        pause();
    out(0x3f8, (uint8_t)it);
}
static void end(uint8_t status) {
    out(0xf4, status);
    for (;;)
        __asm__ volatile("cli; hlt");
}

static void note_range(uint64_t base, uint64_t bytes, uint32_t type) {
    uint64_t more = type == 1 ? PAGE - 1 : 0, to = (base + bytes + PAGE - 1 - more) / PAGE;
    PRINT("memory %x-%x type %u\n", base, base + bytes, type);
    DEMAND(n_ranges < RANGES);
    ranges[n_ranges++] = (range_t){ (base + more) / PAGE, to, type == 1 };
    if (type == 1 && memory_end < to) memory_end = to;
}
static void read_start(uint32_t how, uint64_t told) {
    typedef struct { uint32_t magic, version, flags, modules; uint64_t module, words, acpi, ranges; uint32_t n_ranges; } pvh_t;
    typedef struct { uint64_t base, bytes; uint32_t type, zero; } pvh_range_t;
    const uint32_t *multiboot = (const uint32_t *)(ALL + told), *it;
    const pvh_t *pvh = (const pvh_t *)(ALL + told);
    const pvh_range_t *range = (const pvh_range_t *)(ALL + pvh->ranges);
    uint32_t i, at;
    DEMAND(how == MULTIBOOT || (pvh->magic == PVH && pvh->version >= 1));
    print(how == MULTIBOOT ? "begun by multiboot\n" : "begun by PVH\n", NULL);
    words = (const char *)(ALL + (how == MULTIBOOT ? multiboot[4] : pvh->words));
    for (at = 0; how == MULTIBOOT && at < multiboot[11]; at += 4 + it[0]) {
        it = (const uint32_t *)(ALL + multiboot[12] + at);
        note_range(it[1] | (uint64_t)it[2] << 32, it[3] | (uint64_t)it[4] << 32, it[5]);
    }
    for (i = 0; how != MULTIBOOT && i < pvh->n_ranges; i++)
        note_range(range[i].base, range[i].bytes, range[i].type);
}

void end_by_exception(uint64_t number, uint64_t code, uint64_t at, uint64_t address) {
    PRINT("FAILED: exception %u, code %x, at %x, address %x\n", number, code, at, address);
    end(2);
}
static void use_gates(void) {
    static uint64_t gates[48][2];
    uint64_t i, at = (uint64_t)(uintptr_t)gates;
    uint16_t told[] = { sizeof gates - 1, (uint16_t)at, (uint16_t)(at >> 16), (uint16_t)(at >> 32), (uint16_t)(at >> 48) };
    for (i = 0; i < 48; i++) {
        at = (uint64_t)(uintptr_t)(i < 32 ? exceptions + 16 * i : i == 32 ? timer : spurious);
        gates[i][0] = (at & 0xffff) | 8 << 16 | 0x8e00ull << 32 | (at >> 16 & 0xffff) << 48;
        gates[i][1] = at >> 32;
    }
    __asm__ volatile("lidt %0" : : "m"(told));
    apic(0xf0, 0x100 | 47);
    out(0x21, 0xff);                        /* (the old controllers are off) */
    out(0xa1, 0xff);
}
/* An interrupt every so many nanoseconds, as qemu counts; 0 is never. */
static void set_timer(uint32_t nanoseconds) {
    apic(0x3e0, 0xb);
    apic(0x320, 0x20000 | 32);
    apic(0x380, nanoseconds);
}
/* Starts all other processors, of which qemu tells the number: again and again, until all have come. */
static uint32_t start_others(void) {
    uint32_t i, number;
    out_two(0x510, 5);
    number = in(0x511);
    DEMAND(1 <= number && number <= PROCESSORS);
    memmove(address_of(START_PAGE), other_start, (size_t)(other_end - other_start));
    apic(0x300, 0xc4500);
    while (n_started < number) {
        for (i = 0; i < 20000; i++)
            pause();
        apic(0x300, 0xc4600 | START_PAGE);
    }
    return number;
}
