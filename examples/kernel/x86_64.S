/* Entry in 32-bit mode without paging, by PVH or, in a build with BY_MULTIBOOT, by multiboot. Then 64-bit mode, the other processors, interrupts. */
#define KERNEL  0xffffffff80000000              /* where the kernel has the first GiB of memory */
#define LOW(it) ((it) - KERNEL)
#define START   0x8000                          /* where the other processors begin */

        .section .note.pvh, "a", @note
        .align  4
        .long   4, 8, 18                        /* the entry */
        .asciz  "Xen"
        .quad   start

        .section .boot, "ax"
        .code32
        .align  4
#ifdef BY_MULTIBOOT                              /* (qemu starts no 64-bit file that has this) */
        .long   0x1badb002, 3, -(0x1badb002 + 3)
#endif
        .globl  start
start:
        cli
        cld
        movl    %eax, %edi                      /* 0x2badb002, if by multiboot */
        movl    %ebx, %esi
        xorl    %ebp, %ebp                      /* the processor's number */
enter:
        lgdtl   LOW(segments_low)
        movl    $LOW(first_tables), %eax
        movl    %eax, %cr3
        movl    $0x20, %eax                     /* SSE is off: who uses it gets an exception */
        movl    %eax, %cr4
        movl    $0xc0000080, %ecx
        rdmsr
        orl     $0x100, %eax
        wrmsr
        movl    $0x80010015, %eax
        movl    %eax, %cr0
        ljmpl   $8, $LOW(enter64)
enter_other:
        movw    $0x10, %ax
        movw    %ax, %ds
        movl    $1, %ebp
        lock xaddl %ebp, LOW(n_started)
        jmp     enter

        .section .rodata
        .globl  other_start, other_end
        .code16
other_start:
        cli
        xorw    %ax, %ax
        movw    %ax, %ds
        lgdtl   START + (other_segments - other_start)
        movl    $0x11, %eax
        movl    %eax, %cr0
        ljmpl   $0x18, $enter_other
other_segments:
        .word   31
        .long   LOW(segments)
other_end:

        .section .text
        .code64
enter64:
        movabsq $1f, %rax
        jmp     *%rax
1:      leal    1(%ebp), %eax
        shlq    $14, %rax
        leaq    stacks(%rax), %rsp
        lgdt    segments_high
        xorl    %eax, %eax
        movl    %eax, %ds
        movl    %eax, %es
        movl    %eax, %ss
        movl    %ebp, %edx
        call    enter_c
2:      hlt
        jmp     2b

        /* Exceptions: all come to C with a number and a code, and end there. */
        .globl  exceptions
        .align  16
exceptions:
        .set    n, 0
        .rept   32
        .align  16
        .if     !(0x60227d00 >> n & 1)
        pushq   $0                              /* the processor gives no code */
        .endif
        pushq   $n
        jmp     exception
        .set    n, n + 1
        .endr
exception:
        popq    %rdi
        popq    %rsi
        movq    (%rsp), %rdx
        movq    %cr2, %rcx
        andq    $-16, %rsp
        call    end_by_exception

        /* The timer: on the stack that was interrupted. C, without SSE, changes no other registers than these. */
        .globl  timer, spurious
timer:
        .irp    it, rax, rcx, rdx, rsi, rdi, r8, r9, r10, r11, rbp
        pushq   %\it
        .endr
        movq    %rsp, %rbp
        andq    $-16, %rsp
        cld
        call    tick
        movq    %rbp, %rsp
        .irp    it, rbp, r11, r10, r9, r8, rdi, rsi, rdx, rcx, rax
        popq    %\it
        .endr
spurious:
        iretq

        .section .data
        .globl  n_started
n_started:
        .long   1
        .align  16
segments:                                       /* none; code of 64 bits; data; code of 32 bits */
        .quad   0, 0x00af9a000000ffff, 0x00cf92000000ffff, 0x00cf9a000000ffff
segments_low:
        .word   31
        .long   LOW(segments)
segments_high:
        .word   31
        .quad   segments

        /* The first 4 GiB of memory thrice: where it is, where C has all of it, and in the kernel's addresses. */
        .align  4096
first_tables:
        .quad   LOW(middle) + 3
        .fill   255, 8, 0
        .quad   LOW(middle) + 3
        .fill   254, 8, 0
        .quad   LOW(middle) + 3
middle: .quad   LOW(leaves) + 3, LOW(leaves) + 0x1003, LOW(leaves) + 0x2003, LOW(leaves) + 0x3003
        .fill   506, 8, 0
        .quad   LOW(leaves) + 3, 0
leaves: .set    it, 0x83
        .rept   2048
        .quad   it
        .set    it, it + 0x200000
        .endr
        .section .bss
        .globl  stacks
        .align  4096
stacks: .skip   4 * 0x4000
        .section .note.GNU-stack, "", @progbits
