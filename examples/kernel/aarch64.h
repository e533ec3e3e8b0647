/* The machine: qemu's virt of AArch64 with up to four processors. The serial line is the console, a semihosting call ends qemu. */

enum { PROCESSORS = 4, RANGES = 64, PAGE = 4096, STACK = 0x4000 };
#define KERNEL      0xffffffff80000000u     /* where the kernel has the first GiB of memory */
#define ALL         0xffff800000000000u     /* where it has all of it, and the devices below */
#define MEMORY      0x40000000u             /* where memory begins */
#define KERNEL_GIBI 1u
#define KERNEL_FROM (MEMORY / PAGE + 0x100) /* its own pages */
#define KERNEL_TO   (((uint64_t)(uintptr_t)kernel_end - KERNEL + MEMORY) / PAGE)
#define TABLE(page) ((uint64_t)(page) * PAGE | 3)         /* entries of page tables: a table, and 2 MiB of memory or of devices */
#define LEAF(page)  ((uint64_t)(page) * PAGE | ((page) < MEMORY / PAGE ? 0x705 : 0x701))

typedef struct range { uint64_t from, to; int is_memory; } range_t;
extern uint8_t kernel_end[], stacks[];
extern uint64_t others_entry;
static range_t ranges[RANGES];
static uint64_t memory_end;
static uint32_t n_ranges;
static const char *words = "";
static volatile uint32_t *const serial = (uint32_t *)(ALL + 0x9000000), *const distributor = (uint32_t *)(ALL + 0x8000000),
                         *const interface = (uint32_t *)(ALL + 0x8010000);

static inline void pause(void) { __asm__ volatile("yield"); }
static inline void interrupts_on(void) { __asm__ volatile("msr daifclr, #2" : : : "memory"); }
static inline void interrupts_off(void) { __asm__ volatile("msr daifset, #2" : : : "memory"); }
static inline void *address_of(uint64_t page) { return (void *)(ALL + page * PAGE); }
static inline void set_own(void *own) { __asm__ volatile("msr tpidr_el1, %0" : : "r"(own)); }
static inline void *get_own(void) { void *own; __asm__ volatile("mrs %0, tpidr_el1" : "=r"(own)); return own; }
static inline void use_tables(uint64_t page) {
    __asm__ volatile("dsb sy; msr ttbr1_el1, %0; isb; tlbi vmalle1; dsb sy; isb" : : "r"(page * PAGE) : "memory");
}

static void print_byte(char it) {
    while (serial[6] & 0x20)
        pause();
    serial[0] = (uint8_t)it;
}
static void end(uint8_t status) {
    uint64_t told[2] = { 0x20026, status };
    register uint64_t call __asm__("x0") = 0x20, at __asm__("x1") = (uint64_t)(uintptr_t)told;
    __asm__ volatile("hlt #0xf000" : : "r"(call), "r"(at) : "memory");
    for (;;)
        __asm__ volatile("wfi");
}
void end_by_exception(uint64_t syndrome, uint64_t at, uint64_t address) {
    PRINT("FAILED: exception %x, at %x, address %x\n", syndrome, at, address);
    end(2);
}

/* Memory and the command line stand in the device tree, which is in front of memory: found by their names, and numbers there are big endian. */
static const uint8_t *find(const uint8_t *at, const char *name, size_t bytes) {
    while (at < (const uint8_t *)address_of(KERNEL_FROM) && memcmp(at, name, bytes) != 0)
        at++;
    return at;
}
static void read_start(uint32_t how, uint64_t told) {
    const uint8_t *tree = address_of(MEMORY / PAGE), *at = find(find(tree, "memory@", 7), "\0\0\0\3\0\0\0\20", 8) + 20;
    uint32_t i;
    for (told = how = i = 0; i < 8; i++)
        told = told << 8 | at[i];
    memory_end = (MEMORY + told) / PAGE;
    ranges[n_ranges++] = (range_t){ MEMORY / PAGE, memory_end, 1 };
    PRINT("begun by qemu's virt\nmemory %x-%x type 1\n", MEMORY, MEMORY + told);
    words = (const char *)find(tree, "requests=", 9);
}

static uint32_t timer_count;
static void rearm(void) { __asm__ volatile("msr cntv_tval_el0, %0" : : "r"((uint64_t)timer_count)); }
static void end_interrupt(void) {
    uint32_t it = interface[3];
    rearm();
    interface[4] = it;
}
static void use_gates(void) {
    distributor[0] = 1;
    distributor[0x100 / 4] = 1u << 27;
    interface[1] = 0xf0;
    interface[0] = 1;
}
static void set_timer(uint32_t nanoseconds) {
    timer_count = nanoseconds / 16;         /* (62.5 MHz) */
    rearm();
    __asm__ volatile("msr cntv_ctl_el0, %0" : : "r"((uint64_t)(nanoseconds != 0)));
}
/* Starts one after the other, until there is none. */
static uint32_t start_others(void) {
    uint32_t number = 0;
    uint64_t answer = 0;
    while (++number < PROCESSORS && answer == 0) {
        register uint64_t call __asm__("x0") = 0xc4000003, which __asm__("x1") = number, at __asm__("x2") = others_entry, given __asm__("x3") = number;
        __asm__ volatile("hvc #0" : "+r"(call) : "r"(which), "r"(at), "r"(given) : "memory");
        answer = call;
    }
    return answer == 0 ? number : number - 1;
}
