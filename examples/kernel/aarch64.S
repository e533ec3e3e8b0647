/* Entry of the first processor, and of the others by PSCI, both at EL1 with the MMU off; then interrupts. */
#define MEMORY  0x40000000                      /* where memory begins */
#define KERNEL  0xffffffff80000000              /* where the kernel has its first GiB */
#define LOW(it) ((it) - KERNEL + MEMORY)

        .section .boot, "ax"
        .globl  start
start:  mov     x0, #0
enter_other:                                    /* (the processor's number) */
        mov     x2, x0
        ldr     x3, =LOW(first_tables)
        msr     ttbr0_el1, x3
        msr     ttbr1_el1, x3
        ldr     x3, =0xff                       /* memory of kind 0 is cached, of kind 1 a device */
        msr     mair_el1, x3
        ldr     x3, =0x2b5103510                /* 48 bits of addresses, pages of 4 KiB, tables that are cached and shared */
        msr     tcr_el1, x3
        isb
        mrs     x3, sctlr_el1
        ldr     x4, =0x1005
        orr     x3, x3, x4
        msr     sctlr_el1, x3
        isb
        ldr     x3, =enter_high
        br      x3
        .ltorg

        .section .text
enter_high:
        ldr     x3, =vectors
        msr     vbar_el1, x3
        add     x3, x2, #1
        ldr     x4, =stacks
        add     x4, x4, x3, lsl #14
        mov     sp, x4
        bl      enter_c
1:      wfi
        b       1b
        .ltorg

        .align  11
vectors:
        .rept   5
        b       exception
        .align  7
        .endr
        /* The timer: on the stack that was interrupted. C, without floating point, changes no other registers than these. */
        stp     x29, x30, [sp, #-176]!
        stp     x0, x1, [sp, #16]
        stp     x2, x3, [sp, #32]
        stp     x4, x5, [sp, #48]
        stp     x6, x7, [sp, #64]
        stp     x8, x9, [sp, #80]
        stp     x10, x11, [sp, #96]
        stp     x12, x13, [sp, #112]
        stp     x14, x15, [sp, #128]
        stp     x16, x17, [sp, #144]
        str     x18, [sp, #160]
        bl      tick
        ldr     x18, [sp, #160]
        ldp     x16, x17, [sp, #144]
        ldp     x14, x15, [sp, #128]
        ldp     x12, x13, [sp, #112]
        ldp     x10, x11, [sp, #96]
        ldp     x8, x9, [sp, #80]
        ldp     x6, x7, [sp, #64]
        ldp     x4, x5, [sp, #48]
        ldp     x2, x3, [sp, #32]
        ldp     x0, x1, [sp, #16]
        ldp     x29, x30, [sp], #176
        eret
        .rept   10
        .align  7
        b       exception
        .endr
exception:
        mrs     x0, esr_el1
        mrs     x1, elr_el1
        mrs     x2, far_el1
        b       end_by_exception

        .section .data
        .globl  others_entry
        .align  12
first_tables:                                   /* 4 GiB thrice, as on a PC: a GiB of devices, then memory */
        .quad   LOW(middle) + 3
        .fill   255, 8, 0
        .quad   LOW(middle) + 3
        .fill   254, 8, 0
        .quad   LOW(middle) + 3
middle: .quad   0x705, 0x40000701, 0x80000701, 0xc0000701
        .fill   506, 8, 0
        .quad   0x40000701, 0
others_entry:
        .quad   enter_other
        .section .bss
        .globl  stacks
        .align  12
stacks: .skip   4 * 0x4000
        .section .note.GNU-stack, "", @progbits
