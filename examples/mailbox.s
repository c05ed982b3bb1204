# Two harts share memory: hart 1 waits for a flag and then puts the letter that hart 0 left for it. They take turns, 0,
# 1, 0, 1, ..: hart 1 finds the flag set the third time that it looks, and hart 0 exits first. All this takes 19 turns.
#
# run: ./pump run examples/mailbox.img
# out: M
# err: stop 0 exit 0\n
# err: stop 1 exit 0\n
# status: 0

        .ram    128
        .harts  2
        .entry  0, writer
        .entry  1, reader
        .data                       # no word is listed as code: only control flow asks for that

# Hart 0: first the letter, and then the flag that says that it is there
writer:
        li      t0, 77              # the letter M
        sw      t0, 0x40(zero)      # into the word letter
        li      t0, 1
        sw      t0, 0x3C(zero)      # into the word flag
        li      a0, 0               # the code
        li      a7, 0               # the service exit, which stops hart 0 alone
        ecall

# Hart 1
reader:
        lw      t0, 0x3C(zero)      # the flag
        beq     t0, zero, reader    # while it is 0, looks again
        lw      a0, 0x40(zero)      # 00000024: the letter
        li      a7, 1               # the service put
        ecall
        li      a0, 0               # the code
        li      a7, 0               # the service exit
        ecall

# What they share. The operand 0x40(zero) can't have a name for its number, so these words have fixed places.
        .org    0x3C
flag:
        .word   0                   # 1 once the letter is there
letter:
        .word   0
