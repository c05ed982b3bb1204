# A reader that trusts its input. The desk (compartment 0) keeps a guest's credit and lets a reader (compartment 1) take
# the guest's name, a line of the input, into a buffer of eight bytes. Then the desk puts the credit, the digit 5.
#
# run: ./pump run examples/overrun.img
# input: ann\n
# out: 5
# err: stop 0 exit 0\n
# status: 0
#
# The attack:
#
# 1. The reader stores each byte of the line, and never looks where its buffer ends.
# 2. Behind the buffer, 00000048 to 0000004F, stands the credit, the word at 00000050. It is the desk's.
# 3. Of the line `mallory!9` eight bytes fill the buffer, and the ninth, the digit 9, is stored over the credit.
# 4. The reader returns as ever, and the desk puts the credit that the guest chose. Nobody notices.
#
# run: ./pump run examples/overrun.img
# input: mallory!9\n
# out: 9
# err: stop 0 exit 0\n
# status: 0
#
# Under the policy of compartments the ninth store is refused: the instruction at 00000038 is a word of compartment 1,
# and the word at 00000050 is compartment 0's and lets nobody else write it. `storepart` is the group of SB.
#
# run: ./pump run examples/overrun.img --policy comp
# input: mallory!9\n
# err: stop 0 violation comp rule(storepart) pc 00000038\n
# status: 4
#
# A guest whose name fits, be it by all eight bytes, sees no difference.
#
# run: ./pump run examples/overrun.img --policy comp
# input: ann\n
# out: 5
# err: stop 0 exit 0\n
# status: 0
#
# run: ./pump run examples/overrun.img --policy comp
# input: margaret\n
# out: 5
# err: stop 0 exit 0\n
# status: 0
#
# Control flow alone does not stop the attack: each jump goes where it may, and the stores go to data. Together with
# compartments it is stopped.
#
# run: ./pump run examples/overrun.img --policy flow
# input: mallory!9\n
# out: 9
# err: stop 0 exit 0\n
# status: 0
#
# run: ./pump run examples/overrun.img --policy comp,flow
# input: ann\n
# out: 5
# err: stop 0 exit 0\n
# status: 0
#
# run: ./pump run examples/overrun.img --policy comp,flow
# input: mallory!9\n
# err: stop 0 violation comp rule(storepart) pc 00000038\n
# status: 4

        .ram    128
        .entry  0, desk

# For control flow: the one jump by register is the reader's return, label 1, and the one place where it may go is
# behind the call, label 2.
        .text
        .edge   1, 2

# For compartments: what comes before the first .comp is compartment 0's alone. A .comp says who owns the words that
# follow, and the sets of those who may jump to them and write them, too: 0x1 is compartment 0, and 0x2 is 1.

# The desk
desk:
        jal     ra, reader
        .label  2
        .comp   0, 0x2, 0           # 1 may jump to this word, where its reader returns
        lw      a0, 0x50(zero)      # the credit
        .comp   0, 0, 0
        li      a7, 1               # the service put
        ecall
        li      a0, 0               # the code
        li      a7, 0               # the service exit
        ecall

# The reader, compartment 1: stores a line of the input in its buffer.
        .org    0x20
        .comp   1, 0x1, 0           # 0 may jump to this word, where it calls the reader
reader:
        li      t0, 0x48            # where the next byte goes: first the start of the buffer
        .comp   1, 0, 0             # the rest of the reader and its buffer
next:
        li      a7, 2               # the service get:
        ecall                       # a0 is the next byte, or FFFFFFFF at the end
        blt     a0, zero, back      # only FFFFFFFF is below 0
        addi    t1, a0, -10
        beq     t1, zero, back      # a newline ends the name
        sb      a0, 0(t0)           # 00000038: compartments refuse the ninth store
        addi    t0, t0, 1           # nobody asks whether this is still the buffer
        j       next
back:
        .label  1
        ret                         # 00000044

# The data. li and the operand 0x50(zero) can't have names for their numbers, so these words have fixed places.
        .data
        .org    0x48
buffer:
        .zero   2                   # eight bytes
        .comp   0, 0, 0             # the desk's again
        .org    0x50
credit:
        .word   53                  # the digit 5
