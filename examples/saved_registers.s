# Start code, `main` with a frame, a leaf, and a routine with a fault: `clear` clears its buffer of two words and a third
# word, which is half of the s0 that it saved.
#
#     llvm-mc --triple=riscv64 --filetype=obj saved_registers.s -o saved_registers.o
#     ld.lld --nmagic --strip-all -Ttext=0x10000 saved_registers.o -o saved_registers.elf
#
# With `--mattr=+c` at the first command it is saved_registers_compressed.elf.

    .globl _start
    .text
_start:
    lui sp,0x20           # the stack is below 0x20000
    call main
    ebreak

main:                     # a0 becomes 2*a0 + 1
    addi sp,sp,-16
    sd ra,8(sp)
    sd s0,0(sp)
    addi s0,a0,0
    jal next
    add a0,a0,s0
    jal clear
    ld s0,0(sp)
    ld ra,8(sp)
    addi sp,sp,16
    ret

next:                     # a leaf: a0 becomes a0 + 1
    addi a0,a0,1
    ret

clear:
    addi sp,sp,-16
    sd s0,8(sp)           # the caller's s0, above the buffer at 0(sp) to 7(sp)
    addi s0,sp,0
    sw zero,0(s0)
    sw zero,4(s0)
    sw zero,8(s0)         # one word too many
    ld s0,8(sp)
    addi sp,sp,16
    ret
