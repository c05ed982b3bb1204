# A block in words that the caller may not write. The host (compartment 0) calls a guest (compartment 1), which asks for
# a block, stores the letter G there and returns its pointer. The host puts what is in the block.
#
# Under heap safety alone the guest gets the first block that fits, the words at 00000060 and 00000064.
#
# run: ./pump run examples/consent.img --policy heap
# out: G
# err: stop 0 exit 0\n
# status: 0
#
# With compartments these two words are the host's, and it lets nobody else write them. To hand them out makes them 0,
# so compartments are asked for their consent. They give it where a store of the guest would be allowed, and here it
# would not. Heap safety looks for no other place.
#
# run: ./pump run examples/consent.img --policy comp,heap
# err: stop 0 violation comp consent pc 0000003C\n
# status: 4
#
# With an input of a byte or more the host takes these two words as a block of its own first. So the first that fit for
# the guest are those at 00000068 and 0000006C, which the host lets the guest write. Then the call is served.
#
# run: ./pump run examples/consent.img --policy comp,heap
# input: x
# out: G
# err: stop 0 exit 0\n
# status: 0
#
# Without heap safety no one offers service 48.
#
# run: ./pump run examples/consent.img --policy comp
# err: stop 0 fault noservice 48\n
# status: 5

        .ram    128
        .heap   0x60, 16            # for heap safety: the region of the machine's heap, four words
        .entry  0, host
        .data                       # no word is listed as code: only control flow asks for that

# For compartments: what comes before the first .comp is compartment 0's alone. A .comp says who owns the words that
# follow, and the sets of those who may jump to them and write them, too: 0x1 is compartment 0, and 0x2 is 1.

# The host
host:
        li      a7, 2               # the service get:
        ecall                       # a0 is the first byte of the input, or FFFFFFFF without one
        blt     a0, zero, call      # without input, only the guest asks for a block
        li      a0, 8               # eight bytes
        li      a7, 48              # the service malloc: the host's own block
        ecall
call:
        jal     ra, guest           # a0 points to the guest's block
        .comp   0, 0x2, 0           # 1 may jump to this word, where its guest returns
        lw      a0, 0(a0)           # what is in the guest's block
        .comp   0, 0, 0
        li      a7, 1               # the service put
        ecall
        li      a0, 0               # the code
        li      a7, 0               # the service exit
        ecall

# The guest, compartment 1: gets a block, and stores the letter G there.
        .comp   1, 0x1, 0           # 0 may jump to this word, where it calls the guest
guest:
        li      a0, 8               # eight bytes
        .comp   1, 0, 0             # the rest of the guest
        li      a7, 48              # the service malloc:
        ecall                       # 0000003C: refused where 1 may not write the block
        li      t0, 71              # the letter G
        sw      t0, 0(a0)
        ret

# The heap region. No line stands for its first two words, so they are the host's alone. Its last two are the host's,
# but the guest may write them, too.
        .org    0x68
        .comp   0, 0, 0x2
        .zero   2
