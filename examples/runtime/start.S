# Where a process begins. The kernel gives it in a0 where its code lies, in a1 where its RAM begins, in a2 how long its
# block is, and in a3 its break, which is the end of the RAM that it may use.

# Puts into t2 where variables end: so many bytes behind gp, where the place is not known.
        .macro to_end end, size
#ifdef ONE_PLACE
        lla     t2, \end
#else
        .option push
        .option norelax                 # else the linker may take x0 for gp
        addi    t2, gp, %lo(\size)
        .option pop
#endif
        .endm

        .section .start, "ax"
        .globl _start
_start:
#ifndef HAS_VARIABLES
        andi    sp, a3, -16             # the stack grows down from the break; C wants it at a multiple of 16
#else
# The stack lies lowest, so that one that grows too large is denied, and the static variables behind it, up to the
# break. The kernel relocates nothing: all code finds them from gp, which is set by where this process's RAM begins.
        lui     t0, %hi(stack_size)
        addi    t0, t0, %lo(stack_size)
        add     t1, a1, t0              # where the variables begin
        andi    sp, t1, -16
        mv      gp, t1                  # __global_pointer$, by application.ld
        lla     t0, _initial_values
        to_end  _data_end, _data_size
        j       2f
1:      lw      t3, 0(t0)               # initialised variables get their values,
        sw      t3, 0(t1)
        addi    t0, t0, 4
        addi    t1, t1, 4
2:      bltu    t1, t2, 1b
        to_end  _bss_end, _variables_size
        j       4f
3:      sw      zero, 0(t1)             # and the others are cleared
        addi    t1, t1, 4
4:      bltu    t1, t2, 3b
#ifdef ADDRESSES
# An address of flash that stands in a variable counts from 0x80000000, and one of RAM from 0x10000: here it is made
# what it is.
        lla     t0, addresses
        lla     t1, addresses_end
        lla     t2, _start
        lui     t3, 0x80000
        sub     t2, t2, t3              # what is added to an address of flash,
        lui     t3, 0x10
        sub     t3, a1, t3              # and to one of RAM
5:      lhu     t4, 0(t0)
        add     t4, t4, gp
        lw      t5, 0(t4)
        bltz    t5, 6f
        add     t5, t5, t3
        j       7f
6:      add     t5, t5, t2
7:      sw      t5, 0(t4)
        addi    t0, t0, 2
        bltu    t0, t1, 5b
#endif
#endif
#ifdef PICOLIBC
        lla     tp, _thread_variables
        li      a0, 1                   # main's words: a program's name that is empty, and a null behind it
        lla     a1, words
        call    main
        call    exit                    # with what main returned
#else
        call    main
        mv      a1, a0                  # exit-terminate, with what main returned
        li      a0, 0
        li      a4, 6
        ecall
#endif

#ifdef PICOLIBC
        .section .rodata
        .balign 4
words:  .word   words + 4, 0
#endif

#ifdef ADDRESSES
        .section .rodata
        .balign 4
addresses:
        .half   ADDRESSES               # where from gp on a word holds an address
addresses_end:
#endif
