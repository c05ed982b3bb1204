# Two harts add 1 to a counter that they share, by a load, a sum and a store, and each exits with what it stored. They
# take turns, 0, 1, 0, 1, ..: both load 0 before either has stored, so one of the two additions is lost. With the
# shell's commands in lost_update.cmd they take other turns, too, where none is lost.
#
# run: ./pump run examples/lost_update.img
# err: stop 0 exit 1\n
# err: stop 1 exit 1\n
# status: 1

        .ram    128
        .harts  2
        .entry  0, start            # both harts run the same program, each with its own registers
        .entry  1, start
        .data                       # no word is listed as code: only control flow asks for that

start:
        lw      a0, 0x40(zero)      # the counter, which the other hart may load before the store below
        addi    a0, a0, 1
        sw      a0, 0x40(zero)
        li      a7, 0               # the service exit; the code in a0 is what this hart stored
        ecall

# What they share. The operand 0x40(zero) can't have a name for its number, so the counter has a fixed place.
        .org    0x40
counter:
        .word   0
