# Code, and data of which the file stores the first 8 bytes alone.
#
#     llvm-mc --triple=riscv64 --filetype=obj two_segments.s -o two_segments.o
#     ld.lld --nmagic --strip-all -Ttext=0x10000 -Tdata=0x20000 two_segments.o -o two_segments.elf

    .globl _start
    .text
_start:
    auipc sp,0x10
    addi sp,sp,64
    ld a0,-64(sp)
    slli a1,a0,2
    sub a1,a1,a0
    xori a2,a1,-1
    sd a2,-8(sp)
    ebreak

    .data
    .quad 5
    .bss
    .zero 56
