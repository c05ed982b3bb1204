# A kernel and forty modules that don't trust each other. The kernel (compartment 0) reads a digit, hands it to each module in turn, and
# puts how many events were counted, in two digits. Each module (compartments 1 to 40) has two counters, and adds 1 to the one of
# that digit. More than 32 compartments are what version 2 of the image format is for: `.version 2` stands below, and the mask of
# those who may return to the kernel has 40 bits. This file is written by examples/make_modules.
#
# run: ./pump run examples/modules.img
# input: 1
# out: 40\n
# err: stop 0 exit 0\n
# status: 0
#
# The attack: no module looks whether the digit is 0 or 1. With the digit 2 each adds 1 to the first counter of its neighbour, and the
# last one to a word that is nobody's counter. The kernel puts a count that is wrong.
#
# run: ./pump run examples/modules.img
# input: 2
# out: 39\n
# err: stop 0 exit 0\n
# status: 0
#
# Under the policy of compartments the first such store is refused: the instruction at 0000010C is a word of compartment 1, and the
# word at 00000508 is compartment 2's alone.
#
# run: ./pump run examples/modules.img --policy comp
# input: 2
# err: stop 0 violation comp rule(storeword) pc 0000010C\n
# status: 4
#
# With a digit that is right nobody sees a difference.
#
# run: ./pump run examples/modules.img --policy comp
# input: 1
# out: 40\n
# err: stop 0 exit 0\n
# status: 0

        .version 2
        .ram    0x800

# The kernel: reads the digit, and calls each module with the place of its counter in a0.
        li      a7, 2               # the service get
        ecall                       # a0 is the digit's byte
        addi    a0, a0, -48
        slli    s2, a0, 2           # a counter has four bytes
        li      s0, 0x100           # where the first module begins
        li      s1, 0x420           # and where the last one ends
call:
        addi    a0, s2, 0
        jalr    ra, 0(s0)
        .comp   0, 0x1fffffffffe, 0     # each module may return to this word
        addi    s0, s0, 20          # the next module
        .comp   0, 0, 0
        bne     s0, s1, call

# It sums the counters and puts the sum in two digits.
        li      s0, 0x500
        li      s1, 0x640
        li      s2, 0
sum:
        lw      t0, 0(s0)
        add     s2, s2, t0
        addi    s0, s0, 4
        bne     s0, s1, sum
        li      t0, 10
        divu    a0, s2, t0
        addi    a0, a0, 48
        li      a7, 1               # the service put
        ecall
        remu    a0, s2, t0
        addi    a0, a0, 48
        ecall
        li      a0, 10
        ecall
        li      a0, 0
        li      a7, 0               # the service exit
        ecall

# The modules: the kernel may jump to the first word of each.
        .org    0x100
        .comp   1, 0x1, 0
        addi    t1, a0, 0x500   # module 1: a0 isn't looked at
        .comp   1, 0, 0
        lw      t0, 0(t1)
        addi    t0, t0, 1
        sw      t0, 0(t1)
        ret

        .comp   2, 0x1, 0
        addi    t1, a0, 0x508   # module 2: a0 isn't looked at
        .comp   2, 0, 0
        lw      t0, 0(t1)
        addi    t0, t0, 1
        sw      t0, 0(t1)
        ret

        .comp   3, 0x1, 0
        addi    t1, a0, 0x510   # module 3: a0 isn't looked at
        .comp   3, 0, 0
        lw      t0, 0(t1)
        addi    t0, t0, 1
        sw      t0, 0(t1)
        ret

        .comp   4, 0x1, 0
        addi    t1, a0, 0x518   # module 4: a0 isn't looked at
        .comp   4, 0, 0
        lw      t0, 0(t1)
        addi    t0, t0, 1
        sw      t0, 0(t1)
        ret

        .comp   5, 0x1, 0
        addi    t1, a0, 0x520   # module 5: a0 isn't looked at
        .comp   5, 0, 0
        lw      t0, 0(t1)
        addi    t0, t0, 1
        sw      t0, 0(t1)
        ret

        .comp   6, 0x1, 0
        addi    t1, a0, 0x528   # module 6: a0 isn't looked at
        .comp   6, 0, 0
        lw      t0, 0(t1)
        addi    t0, t0, 1
        sw      t0, 0(t1)
        ret

        .comp   7, 0x1, 0
        addi    t1, a0, 0x530   # module 7: a0 isn't looked at
        .comp   7, 0, 0
        lw      t0, 0(t1)
        addi    t0, t0, 1
        sw      t0, 0(t1)
        ret

        .comp   8, 0x1, 0
        addi    t1, a0, 0x538   # module 8: a0 isn't looked at
        .comp   8, 0, 0
        lw      t0, 0(t1)
        addi    t0, t0, 1
        sw      t0, 0(t1)
        ret

        .comp   9, 0x1, 0
        addi    t1, a0, 0x540   # module 9: a0 isn't looked at
        .comp   9, 0, 0
        lw      t0, 0(t1)
        addi    t0, t0, 1
        sw      t0, 0(t1)
        ret

        .comp   10, 0x1, 0
        addi    t1, a0, 0x548   # module 10: a0 isn't looked at
        .comp   10, 0, 0
        lw      t0, 0(t1)
        addi    t0, t0, 1
        sw      t0, 0(t1)
        ret

        .comp   11, 0x1, 0
        addi    t1, a0, 0x550   # module 11: a0 isn't looked at
        .comp   11, 0, 0
        lw      t0, 0(t1)
        addi    t0, t0, 1
        sw      t0, 0(t1)
        ret

        .comp   12, 0x1, 0
        addi    t1, a0, 0x558   # module 12: a0 isn't looked at
        .comp   12, 0, 0
        lw      t0, 0(t1)
        addi    t0, t0, 1
        sw      t0, 0(t1)
        ret

        .comp   13, 0x1, 0
        addi    t1, a0, 0x560   # module 13: a0 isn't looked at
        .comp   13, 0, 0
        lw      t0, 0(t1)
        addi    t0, t0, 1
        sw      t0, 0(t1)
        ret

        .comp   14, 0x1, 0
        addi    t1, a0, 0x568   # module 14: a0 isn't looked at
        .comp   14, 0, 0
        lw      t0, 0(t1)
        addi    t0, t0, 1
        sw      t0, 0(t1)
        ret

        .comp   15, 0x1, 0
        addi    t1, a0, 0x570   # module 15: a0 isn't looked at
        .comp   15, 0, 0
        lw      t0, 0(t1)
        addi    t0, t0, 1
        sw      t0, 0(t1)
        ret

        .comp   16, 0x1, 0
        addi    t1, a0, 0x578   # module 16: a0 isn't looked at
        .comp   16, 0, 0
        lw      t0, 0(t1)
        addi    t0, t0, 1
        sw      t0, 0(t1)
        ret

        .comp   17, 0x1, 0
        addi    t1, a0, 0x580   # module 17: a0 isn't looked at
        .comp   17, 0, 0
        lw      t0, 0(t1)
        addi    t0, t0, 1
        sw      t0, 0(t1)
        ret

        .comp   18, 0x1, 0
        addi    t1, a0, 0x588   # module 18: a0 isn't looked at
        .comp   18, 0, 0
        lw      t0, 0(t1)
        addi    t0, t0, 1
        sw      t0, 0(t1)
        ret

        .comp   19, 0x1, 0
        addi    t1, a0, 0x590   # module 19: a0 isn't looked at
        .comp   19, 0, 0
        lw      t0, 0(t1)
        addi    t0, t0, 1
        sw      t0, 0(t1)
        ret

        .comp   20, 0x1, 0
        addi    t1, a0, 0x598   # module 20: a0 isn't looked at
        .comp   20, 0, 0
        lw      t0, 0(t1)
        addi    t0, t0, 1
        sw      t0, 0(t1)
        ret

        .comp   21, 0x1, 0
        addi    t1, a0, 0x5a0   # module 21: a0 isn't looked at
        .comp   21, 0, 0
        lw      t0, 0(t1)
        addi    t0, t0, 1
        sw      t0, 0(t1)
        ret

        .comp   22, 0x1, 0
        addi    t1, a0, 0x5a8   # module 22: a0 isn't looked at
        .comp   22, 0, 0
        lw      t0, 0(t1)
        addi    t0, t0, 1
        sw      t0, 0(t1)
        ret

        .comp   23, 0x1, 0
        addi    t1, a0, 0x5b0   # module 23: a0 isn't looked at
        .comp   23, 0, 0
        lw      t0, 0(t1)
        addi    t0, t0, 1
        sw      t0, 0(t1)
        ret

        .comp   24, 0x1, 0
        addi    t1, a0, 0x5b8   # module 24: a0 isn't looked at
        .comp   24, 0, 0
        lw      t0, 0(t1)
        addi    t0, t0, 1
        sw      t0, 0(t1)
        ret

        .comp   25, 0x1, 0
        addi    t1, a0, 0x5c0   # module 25: a0 isn't looked at
        .comp   25, 0, 0
        lw      t0, 0(t1)
        addi    t0, t0, 1
        sw      t0, 0(t1)
        ret

        .comp   26, 0x1, 0
        addi    t1, a0, 0x5c8   # module 26: a0 isn't looked at
        .comp   26, 0, 0
        lw      t0, 0(t1)
        addi    t0, t0, 1
        sw      t0, 0(t1)
        ret

        .comp   27, 0x1, 0
        addi    t1, a0, 0x5d0   # module 27: a0 isn't looked at
        .comp   27, 0, 0
        lw      t0, 0(t1)
        addi    t0, t0, 1
        sw      t0, 0(t1)
        ret

        .comp   28, 0x1, 0
        addi    t1, a0, 0x5d8   # module 28: a0 isn't looked at
        .comp   28, 0, 0
        lw      t0, 0(t1)
        addi    t0, t0, 1
        sw      t0, 0(t1)
        ret

        .comp   29, 0x1, 0
        addi    t1, a0, 0x5e0   # module 29: a0 isn't looked at
        .comp   29, 0, 0
        lw      t0, 0(t1)
        addi    t0, t0, 1
        sw      t0, 0(t1)
        ret

        .comp   30, 0x1, 0
        addi    t1, a0, 0x5e8   # module 30: a0 isn't looked at
        .comp   30, 0, 0
        lw      t0, 0(t1)
        addi    t0, t0, 1
        sw      t0, 0(t1)
        ret

        .comp   31, 0x1, 0
        addi    t1, a0, 0x5f0   # module 31: a0 isn't looked at
        .comp   31, 0, 0
        lw      t0, 0(t1)
        addi    t0, t0, 1
        sw      t0, 0(t1)
        ret

        .comp   32, 0x1, 0
        addi    t1, a0, 0x5f8   # module 32: a0 isn't looked at
        .comp   32, 0, 0
        lw      t0, 0(t1)
        addi    t0, t0, 1
        sw      t0, 0(t1)
        ret

        .comp   33, 0x1, 0
        addi    t1, a0, 0x600   # module 33: a0 isn't looked at
        .comp   33, 0, 0
        lw      t0, 0(t1)
        addi    t0, t0, 1
        sw      t0, 0(t1)
        ret

        .comp   34, 0x1, 0
        addi    t1, a0, 0x608   # module 34: a0 isn't looked at
        .comp   34, 0, 0
        lw      t0, 0(t1)
        addi    t0, t0, 1
        sw      t0, 0(t1)
        ret

        .comp   35, 0x1, 0
        addi    t1, a0, 0x610   # module 35: a0 isn't looked at
        .comp   35, 0, 0
        lw      t0, 0(t1)
        addi    t0, t0, 1
        sw      t0, 0(t1)
        ret

        .comp   36, 0x1, 0
        addi    t1, a0, 0x618   # module 36: a0 isn't looked at
        .comp   36, 0, 0
        lw      t0, 0(t1)
        addi    t0, t0, 1
        sw      t0, 0(t1)
        ret

        .comp   37, 0x1, 0
        addi    t1, a0, 0x620   # module 37: a0 isn't looked at
        .comp   37, 0, 0
        lw      t0, 0(t1)
        addi    t0, t0, 1
        sw      t0, 0(t1)
        ret

        .comp   38, 0x1, 0
        addi    t1, a0, 0x628   # module 38: a0 isn't looked at
        .comp   38, 0, 0
        lw      t0, 0(t1)
        addi    t0, t0, 1
        sw      t0, 0(t1)
        ret

        .comp   39, 0x1, 0
        addi    t1, a0, 0x630   # module 39: a0 isn't looked at
        .comp   39, 0, 0
        lw      t0, 0(t1)
        addi    t0, t0, 1
        sw      t0, 0(t1)
        ret

        .comp   40, 0x1, 0
        addi    t1, a0, 0x638   # module 40: a0 isn't looked at
        .comp   40, 0, 0
        lw      t0, 0(t1)
        addi    t0, t0, 1
        sw      t0, 0(t1)
        ret

# Their counters, two words each.
        .data
        .org    0x500
        .comp   1, 0, 0
        .zero   2
        .comp   2, 0, 0
        .zero   2
        .comp   3, 0, 0
        .zero   2
        .comp   4, 0, 0
        .zero   2
        .comp   5, 0, 0
        .zero   2
        .comp   6, 0, 0
        .zero   2
        .comp   7, 0, 0
        .zero   2
        .comp   8, 0, 0
        .zero   2
        .comp   9, 0, 0
        .zero   2
        .comp   10, 0, 0
        .zero   2
        .comp   11, 0, 0
        .zero   2
        .comp   12, 0, 0
        .zero   2
        .comp   13, 0, 0
        .zero   2
        .comp   14, 0, 0
        .zero   2
        .comp   15, 0, 0
        .zero   2
        .comp   16, 0, 0
        .zero   2
        .comp   17, 0, 0
        .zero   2
        .comp   18, 0, 0
        .zero   2
        .comp   19, 0, 0
        .zero   2
        .comp   20, 0, 0
        .zero   2
        .comp   21, 0, 0
        .zero   2
        .comp   22, 0, 0
        .zero   2
        .comp   23, 0, 0
        .zero   2
        .comp   24, 0, 0
        .zero   2
        .comp   25, 0, 0
        .zero   2
        .comp   26, 0, 0
        .zero   2
        .comp   27, 0, 0
        .zero   2
        .comp   28, 0, 0
        .zero   2
        .comp   29, 0, 0
        .zero   2
        .comp   30, 0, 0
        .zero   2
        .comp   31, 0, 0
        .zero   2
        .comp   32, 0, 0
        .zero   2
        .comp   33, 0, 0
        .zero   2
        .comp   34, 0, 0
        .zero   2
        .comp   35, 0, 0
        .zero   2
        .comp   36, 0, 0
        .zero   2
        .comp   37, 0, 0
        .zero   2
        .comp   38, 0, 0
        .zero   2
        .comp   39, 0, 0
        .zero   2
        .comp   40, 0, 0
        .zero   2
