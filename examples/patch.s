# A guest that rewrites its host. The host (compartment 0) calls a guest (compartment 1), and then it is to say no: to
# put N. But the guest has stored another instruction in the place of the one that says so, and the host puts Y.
#
# run: ./pump run examples/patch.img
# out: Y
# err: stop 0 exit 0\n
# status: 0
#
# Two policies refuse that store, each for its own reason. The word at 00000004 is compartment 0's, and the SW at
# 00000020 is compartment 1's:
#
# run: ./pump run examples/patch.img --policy comp
# err: stop 0 violation comp rule(storeword) pc 00000020\n
# status: 4
#
# And it is code, which control flow lets nobody write:
#
# run: ./pump run examples/patch.img --policy flow
# err: stop 0 violation flow rule(storeword) pc 00000020\n
# status: 4
#
# Where both are chosen, the one named is the first that refuses in the order seal, comp, flow, whatever the order on
# the command line.
#
# run: ./pump run examples/patch.img --policy comp,flow
# err: stop 0 violation comp rule(storeword) pc 00000020\n
# status: 4
#
# run: ./pump run examples/patch.img --policy flow,comp
# err: stop 0 violation comp rule(storeword) pc 00000020\n
# status: 4
#
# A policy that refuses nothing changes nothing: sealing allows a store of data. So the next one is named.
#
# run: ./pump run examples/patch.img --policy seal
# out: Y
# err: stop 0 exit 0\n
# status: 0
#
# run: ./pump run examples/patch.img --policy flow,seal
# err: stop 0 violation flow rule(storeword) pc 00000020\n
# status: 4

        .ram    64
        .entry  0, host

# For control flow: the host and the guest are code, and what the guest stores is not. The one jump by register is the
# guest's return, label 1, and the one place where it may go is behind the call, label 2.
        .text
        .edge   1, 2

# For compartments: what comes before the first .comp is compartment 0's alone. A .comp says who owns the words that
# follow, and the sets of those who may jump to them and write them, too: 0x1 is compartment 0, and 0x2 is 1.

# The host
host:
        jal     ra, guest
        .label  2
        .comp   0, 0x2, 0           # 1 may jump to this word, where its guest returns, and not write it
answer:
        li      a0, 78              # 00000004: the letter N, which the guest writes over
        .comp   0, 0, 0
        li      a7, 1               # the service put
        ecall
        li      a0, 0               # the code
        li      a7, 0               # the service exit
        ecall

# The guest
        .comp   1, 0x1, 0           # 0 may jump to this word, where it calls the guest
guest:
        lw      t0, 0x28(zero)      # the instruction at other
        .comp   1, 0, 0             # the rest of the guest
        sw      t0, 4(zero)         # 00000020: stores it at answer, in the host's code
        .label  1
        ret

# What it stores: an instruction, but no code. The operand 0x28(zero) can't have a name for its number, so this word has
# a fixed place.
        .data
        .org    0x28
other:
        li      a0, 89              # the letter Y
