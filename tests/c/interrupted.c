/* A handler on the stack that it interrupted, right below the stack pointer, as an interrupt comes to a kernel without a stack of its own. For the
 * archives of x86-64 kernels, which leave nothing below the stack pointer and use general registers alone; over the one of programs it fails.
 *
 * The processor's trap flag is set, so that Linux sends SIGTRAP after each instruction, on a stack apart. Then that stack pointer and the
 * instruction's address are written below the interrupted stack pointer as the processor writes them at an interrupt, and the program goes on
 * at `entry`, which saves the general registers, calls the handler, and ends by iretq. So the handler comes before each instruction of the
 * calls below, but those of the C library and of the handler itself. It has a worker of its own, and never calls again after ZONE_BUSY.
 *
 *     interrupted [SEED]      prints one line and answers 0; or tells what was wrong and answers 1, if it doesn't end before that */
#define _GNU_SOURCE
#include "zonealloc.h"
#include "zonealloc_memory.h"
#include "checking.h"
#include <signal.h>
#include <stdlib.h>
#include <sys/time.h>
#include <ucontext.h>

enum { PAGES = 4096, ENOUGH = 400000, HELD = 48, STACK = 1 << 16, MAIN = 1, HANDLER = 2, TRAP = 1 << 8 };
typedef struct { uint32_t page, order; } block_t;
typedef struct { zone_worker_t *worker; uint32_t name, held, random, calls, busy; block_t blocks[HELD]; } user_t;

static const zone_spec_t normal = { 0, PAGES, 16, 10, 6, { 'N', 'o', 'r', 'm', 'a', 'l' } };
static zone_row_t row;
static zone_worker_t workers[2];
static user_t user = { &workers[0], MAIN, 0, 1, 0, 0, { { 0, 0 } } }, handler_user = { &workers[1], HANDLER, 0, 2, 0, 0, { { 0, 0 } } };
static uint8_t owners[PAGES];
static unsigned char heap[4 << 20] __attribute__((aligned(64))), apart[STACK];
static size_t used;
static volatile uint32_t inside, interrupts, wrong;
extern char __executable_start[], etext[];

/* --- what the archive wants: here, so that the program is all that it calls (volatile, or these loops were calls of themselves) --- */

rattle_memory_t rattle_alloc(size_t bytes, size_t align)
{
    rattle_memory_t got = { false, heap };
    size_t start = (used + align - 1) / align * align;
    if (align > 64 || start > sizeof heap || bytes > sizeof heap - start)
        return got;
    used = start + bytes;
    got.ok = true;
    got.at = heap + start;
    return got;
}

void rattle_dealloc(void *at) { (void)at; }

void *memcpy(void *to, const void *from, size_t bytes)
{
    volatile unsigned char *at = (unsigned char *)to;
    const unsigned char *next = (const unsigned char *)from;
    while (bytes-- > 0)
        *at++ = *next++;
    return to;
}

void *memmove(void *to, const void *from, size_t bytes)
{
    volatile unsigned char *at = (unsigned char *)to;
    const unsigned char *next = (const unsigned char *)from;
    if ((uintptr_t)to <= (uintptr_t)from)
        return memcpy(to, from, bytes);
    while (bytes-- > 0)
        at[bytes] = next[bytes];
    return to;
}

void *memset(void *to, int value, size_t bytes)
{
    volatile unsigned char *at = (unsigned char *)to;
    while (bytes-- > 0)
        *at++ = (unsigned char)value;
    return to;
}

/* --- calls, of the program and of the handler; what each has is noted page by page --- */

static uint32_t drawn(user_t *it, uint32_t below)
{
    it->random = it->random * 1664525u + 1013904223u;
    return (it->random >> 8) % below;
}

static void note(block_t block, uint32_t was, uint32_t is)
{
    uint32_t i;
    for (i = 0; i < 1u << block.order; i++) {
        wrong += block.page + i >= PAGES || owners[(block.page + i) % PAGES] != was;
        owners[(block.page + i) % PAGES] = (uint8_t)is;
    }
}

static void answered(user_t *it, uint32_t answer, uint32_t may)
{
    it->calls++;
    it->busy += answer == ZONE_BUSY;
    wrong += answer != ZONE_OK && answer != may && !(answer == ZONE_BUSY && it->name == HANDLER);
}

static void take_one(user_t *it)
{
    block_t block = { 0, drawn(it, 3) == 0 ? drawn(it, 7) : 0 };
    uint32_t type = drawn(it, ZONE_TYPES), answer;
    if (block.order != 0 || drawn(it, 2)) {
        answer = zonealloc_alloc(it->worker, 0, block.order, type, ZONE_ANY, &block.page);
        answered(it, answer, ZONE_NO_BLOCK);
    } else {
        answer = zonealloc_take(it->worker, 0, type, &block.page);
        answered(it, answer, ZONE_LIST_EMPTY);
        if (answer == ZONE_LIST_EMPTY)
            answered(it, zonealloc_refill(it->worker, 0, type, ZONE_ANY), ZONE_NO_BLOCK);
    }
    if (answer != ZONE_OK)
        return;
    note(block, 0, it->name);
    it->blocks[it->held++] = block;
}

static void give_one(user_t *it)
{
    uint32_t at = drawn(it, it->held), answer;
    block_t block = it->blocks[at];
    note(block, it->name, 0);
    if (block.order == 0 && drawn(it, 2)) {
        answer = zonealloc_put(it->worker, 0, block.page);
        answered(it, answer, ZONE_LIST_FULL);
    } else {
        answer = zonealloc_free(it->worker, 0, block.page, block.order);
        answered(it, answer, ZONE_OK);
    }
    if (answer == ZONE_OK)
        it->blocks[at] = it->blocks[--it->held];
    else
        note(block, 0, it->name);
}

static void call_once(user_t *it)
{
    zone_counts_t counts;
    uint32_t what = drawn(it, 16);
    if (what == 0)
        answered(it, zonealloc_drain_all(it->worker, 0), ZONE_OK);
    else if (what == 1)
        answered(it, zonealloc_counts(it->worker, 0, &counts), ZONE_OK);
    else if (it->held == HELD || (it->held > 0 && what < 9))
        give_one(it);
    else
        take_one(it);
}

/* --- the interrupt --- */

void handler(void);
void handler(void)
{
    interrupts++;
    call_once(&handler_user);
    inside = 0;
}

/* (At an interrupt the stack pointer is a multiple of 16, below which are five words.) */
void entry(void);
__asm__(".text\n.globl entry\n.type entry, @function\nentry:\n"
        "pushq %rax\npushq %rbx\npushq %rcx\npushq %rdx\npushq %rsi\npushq %rdi\npushq %rbp\npushq %r8\npushq %r9\npushq %r10\npushq %r11\n"
        "pushq %r12\npushq %r13\npushq %r14\npushq %r15\ncld\ncall handler\n"
        "popq %r15\npopq %r14\npopq %r13\npopq %r12\npopq %r11\npopq %r10\npopq %r9\npopq %r8\npopq %rbp\npopq %rdi\npopq %rsi\npopq %rdx\n"
        "popq %rcx\npopq %rbx\npopq %rax\niretq\n.size entry, . - entry\n");

static void trapped(int number, siginfo_t *told, void *context)
{
    greg_t *at = ((ucontext_t *)context)->uc_mcontext.gregs;
    uint64_t *frame = (uint64_t *)(at[REG_RSP] & ~15LL) - 5, code, stack;
    (void)number; (void)told;
    if (inside || at[REG_RIP] < (greg_t)__executable_start || at[REG_RIP] >= (greg_t)etext)
        return;
    inside = 1;
    __asm__("movq %%cs, %0\n\tmovq %%ss, %1" : "=r"(code), "=r"(stack));
    frame[0] = (uint64_t)at[REG_RIP]; frame[1] = code; frame[2] = (uint64_t)at[REG_EFL]; frame[3] = (uint64_t)at[REG_RSP]; frame[4] = stack;
    at[REG_RSP] = (greg_t)frame;
    at[REG_RIP] = (greg_t)entry;
    at[REG_EFL] &= ~(greg_t)TRAP;     /* the handler goes by itself; iretq sets the flag again */
}

static void step(uint64_t is_on)
{
    __asm__ volatile("leaq -128(%%rsp), %%rsp\n\tpushfq\n\tandq $~0x100, (%%rsp)\n\torq %0, (%%rsp)\n\tpopfq\n\tleaq 128(%%rsp), %%rsp"
                     : : "r"(is_on ? (uint64_t)TRAP : 0) : "memory", "cc");
}

int main(int count, char **words)
{
    struct sigaction action;
    stack_t other;
    const struct itimerval most = { { 0, 0 }, { 2, 0 } };     /* many times what it takes, but for what is the system's */
    zone_totals_t totals;
    uint32_t i;
    memset(&action, 0, sizeof action); memset(&other, 0, sizeof other);
    action.sa_sigaction = trapped;
    action.sa_flags = SA_SIGINFO | SA_ONSTACK;
    other.ss_sp = apart; other.ss_size = sizeof apart;
    CHECK(setitimer(ITIMER_VIRTUAL, &most, NULL) == 0);
    CHECK(sigaltstack(&other, NULL) == 0 && sigaction(SIGTRAP, &action, NULL) == 0);
    CHECK(zonealloc_make(&row, workers, 2, &normal, 1, 7, 20) == ZONE_OK);
    user.random += count > 1 ? (uint32_t)atoi(words[1]) : 0;
    step(1);
    for (i = 0; interrupts < ENOUGH && i < ENOUGH && wrong == 0; i++)
        call_once(&user);
    step(0);
    CHECK(wrong == 0 && interrupts >= ENOUGH);
    CHECK(user.busy == 0 && user.calls > 100 && handler_user.busy > 1000 && handler_user.calls - handler_user.busy > 1000);
    while (user.held > 0)
        give_one(&user);
    while (handler_user.held > 0)
        give_one(&handler_user);
    for (i = 0; i < 2; i++)
        CHECK(zonealloc_drain_all(&workers[i], 0) == ZONE_OK && zonealloc_dismiss(&workers[i]) == ZONE_OK);
    CHECK(wrong == 0 && zonealloc_gather(&row, 0, &totals) == ZONE_OK && totals.free == PAGES && zonealloc_unmake(&row) == ZONE_OK);
    printf("interrupted: %u calls with %u interrupts, %u of them while the zone was busy: %u checks, %u failures\n", (unsigned)user.calls,
           (unsigned)interrupts, (unsigned)handler_user.busy, checks, failures);
    return failures == 0 ? 0 : 1;
}
