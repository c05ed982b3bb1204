# The start of a C program on pump: the stack begins at the end of the RAM and grows down, and what main answers is the
# code of the hart's exit. Memory that the image doesn't fill is 0, so .bss needs nothing.
        .section .text.start, "ax"
        .globl  _start
        .type   _start, @function
_start:
        la      sp, stack_top           # of link.ld
        call    main
        li      a7, 0                   # the service exit, with the code in a0
        ecall
        .size   _start, . - _start
