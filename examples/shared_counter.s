# A counter of two compartments. A shop (compartment 1) gives a guest (compartment 0) a coupon for the asking, but at
# most three: it counts them, and keeps what the guest has, the digit that is put in the end. The letters of the input
# behind the first say what the guest does: `c` asks for a coupon, any other letter does nothing.
#
# run: ./pump run examples/shared_counter.img
# input: kcc
# out: 2
# err: stop 0 exit 0\n
# status: 0
#
# run: ./pump run examples/shared_counter.img
# input: kccccc
# out: 3
# err: stop 0 exit 0\n
# status: 0
#
# The attack:
#
# 1. The counter is a word in memory, and the guest knows where.
# 2. With the letter x the guest stores 0 there.
# 3. The shop counts from 0 again, and gives a fourth coupon.
#
# run: ./pump run examples/shared_counter.img
# input: kcccxc
# out: 4
# err: stop 0 exit 0\n
# status: 0
#
# Under the policy of compartments that store is refused: the SW at 00000030 is a word of compartment 0, and the
# counter is compartment 1's and lets nobody else write it. To read it is free.
#
# run: ./pump run examples/shared_counter.img --policy comp
# input: kcccxc
# err: stop 0 violation comp rule(storeword) pc 00000030\n
# status: 4
#
# A guest who only asks sees no difference.
#
# run: ./pump run examples/shared_counter.img --policy comp
# input: kccccc
# out: 3
# err: stop 0 exit 0\n
# status: 0
#
# Where the first letter is s, the shop first shares the counter with compartment 0, by the service 34, so that the
# guest could count as well. Then the attack succeeds under the policy, too: it says who writes a word, and not what.
# Who shares a counter trusts all who may write it.
#
# run: ./pump run examples/shared_counter.img --policy comp
# input: scccxc
# out: 4
# err: stop 0 exit 0\n
# status: 0
#
# What the guest has is a word that was not shared. It is shared neither by the service nor by the image, and so no
# store of the guest's goes there.
#
# Without the policy no one offers service 34.
#
# run: ./pump run examples/shared_counter.img
# input: scccxc
# err: stop 0 fault noservice 34\n
# status: 5
#
# Control flow alone does not stop the attack: the store goes to data, and each jump goes where it may.
#
# run: ./pump run examples/shared_counter.img --policy flow
# input: kcccxc
# out: 4
# err: stop 0 exit 0\n
# status: 0

        .ram    256
        .entry  0, guest

# For control flow: the shop's returns, label 1, may go behind the guest's calls, label 2.
        .text
        .edge   1, 2

# For compartments: what comes before the first .comp is compartment 0's alone. A .comp says who owns the words that
# follow, and the sets of those who may jump to them and write them, too: 0x1 is compartment 0, and 0x2 is 1.

# The guest
guest:
        li      a7, 2               # the service get:
        ecall                       # a0 is the first letter of the input
        jal     ra, open            # the shop opens, and may share its counter
        .label  2
        .comp   0, 0x2, 0           # 1 may jump to this word, where its shop returns
next:
        li      a7, 2               # the service get:
        .comp   0, 0, 0
        ecall                       # a0 is the next letter, or FFFFFFFF at the end
        blt     a0, zero, end       # only FFFFFFFF is below 0
        addi    t0, a0, -99
        beq     t0, zero, ask       # the letter c
        addi    t0, a0, -120
        bne     t0, zero, next      # another one than x
        la      t0, counter
        sw      zero, 0(t0)         # 00000030: the counter is set back
        j       next
ask:
        jal     ra, coupon
        .label  2
        .comp   0, 0x2, 0           # 1 may jump to this word, where its shop returns
        j       next
        .comp   0, 0, 0
end:
        la      t0, owned
        lw      a0, 0(t0)           # what the guest has
        li      a7, 1               # the service put
        ecall
        li      a0, 0               # the code
        li      a7, 0               # the service exit
        ecall

# The shop, compartment 1. It opens: where a0 is the letter s, compartment 0 may write the counter, too.
        .comp   1, 0x1, 0           # 0 may jump to this word
open:
        addi    a0, a0, -115
        .comp   1, 0, 0
        bne     a0, zero, opened
        la      a0, counter
        li      a1, 1               # one word
        li      a2, 0               # compartment 0
        li      a7, 34              # the service let_write of compartments
        ecall
opened:
        .label  1
        ret

# It gives a coupon, if fewer than three were given.
        .comp   1, 0x1, 0           # 0 may jump to this word
coupon:
        li      t2, 3               # so many at most
        .comp   1, 0, 0
        la      t0, counter
        lw      t1, 0(t0)
        bgeu    t1, t2, given
        addi    t1, t1, 1
        sw      t1, 0(t0)
        la      t0, owned
        lw      t1, 0(t0)
        addi    t1, t1, 1           # a digit more
        sw      t1, 0(t0)
given:
        .label  1
        ret

        .data
counter:
        .word   0
owned:
        .word   48                  # the digit 0
