# A name that is longer than its block. The program takes the rest of the input as a name into a block of eight bytes,
# behind which it has another block with a credit, the digit 5. In the end it puts the credit.
#
# The first letter of the input says who hands out the blocks: `m` the machine, by the services 48 and 49, which heap
# safety offers; any other letter the program itself, from a list of free blocks that it keeps in ordinary memory.
#
# A name of up to eight bytes does no harm:
#
# run: ./pump run examples/heap_overflow.img
# input: omargaret
# out: 5
# err: stop 0 exit 0\n
# status: 0
#
# run: ./pump run examples/heap_overflow.img --policy heap
# input: mmargaret
# out: 5
# err: stop 0 exit 0\n
# status: 0
#
# The attack:
#
# 1. The program stores each byte of the name, and never looks where the block ends.
# 2. The block of the credit begins where that of the name ends.
# 3. Of the name `mallory!9` eight bytes fill the block, and the ninth, the digit 9, is stored one word too far: it is
#    the first byte of the credit.
# 4. The program puts the credit that the guest chose.
#
# run: ./pump run examples/heap_overflow.img
# input: omallory!9
# out: 9
# err: stop 0 exit 0\n
# status: 0
#
# Under heap safety, with the machine's heap, the ninth store is refused:
#
# 1. The block of the name has the number 0: its two words are tagged cell(0,val), and s0 is tagged ptr(0). The block of
#    the credit has the number 1.
# 2. t1 starts as s0 and grows. A sum of a pointer and a number is a pointer to the same block, here ptr(0), wherever it
#    leads.
# 3. So t1 may lead past its block. Refused is the store at 00000034: it goes by ptr(0) to a word of the block 1.
#    `storepart` is the group of SB.
#
# run: ./pump run examples/heap_overflow.img --policy heap
# input: mmallory!9
# err: stop 0 violation heap rule(storepart) pc 00000034\n
# status: 4
#
# The policy guards the blocks that its own services hand out. Those of the program's own heap are ordinary memory to
# it:
#
# run: ./pump run examples/heap_overflow.img --policy heap
# input: omallory!9
# out: 9
# err: stop 0 exit 0\n
# status: 0
#
# The other policies allow the attack: no value is sealed, all words are compartment 0's, and each jump goes where it
# may.
#
# run: ./pump run examples/heap_overflow.img --policy seal,comp,flow
# input: omallory!9
# out: 9
# err: stop 0 exit 0\n
# status: 0
#
# With all four of them it is stopped as by heap safety alone, and a name that fits does no harm.
#
# run: ./pump run examples/heap_overflow.img --policy seal,comp,flow,heap
# input: mmallory!9
# err: stop 0 violation heap rule(storepart) pc 00000034\n
# status: 4
#
# run: ./pump run examples/heap_overflow.img --policy seal,comp,flow,heap
# input: mmargaret
# out: 5
# err: stop 0 exit 0\n
# status: 0
#
# And without the policy no one offers service 48.
#
# run: ./pump run examples/heap_overflow.img
# input: mmallory!9
# err: stop 0 fault noservice 48\n
# status: 5

        .ram    256
        .heap   0xE0, 32            # for heap safety: the region of the machine's heap
        .entry  0, start

# For control flow: the program is code, and its own heap is not. The jumps by register are the two returns of hand_out,
# label 1, and the places where they may go are behind its calls, label 2.
        .text
        .edge   1, 2

start:
        li      a7, 2               # the service get:
        ecall                       # a0 is the first letter of the input
        addi    s1, a0, -109        # 0 for the letter m: the machine's heap
        jal     ra, hand_out        # a block for the name
        .label  2
        mv      s0, a0              # s0 points to the name
        jal     ra, hand_out        # a block for the credit
        .label  2
        mv      s2, a0              # s2 points to the credit
        li      t0, 53              # the digit 5
        sw      t0, 0(s2)

# The rest of the input is the name.
        mv      t1, s0              # where the next byte goes: first the start of the block
next:
        li      a7, 2               # the service get:
        ecall                       # a0 is the next byte, or FFFFFFFF at the end
        blt     a0, zero, end       # only FFFFFFFF is below 0
        sb      a0, 0(t1)           # 00000034: heap safety refuses the ninth store
        addi    t1, t1, 1           # nobody asks whether this is still the block
        j       next

end:
        lw      a0, 0(s2)           # the credit
        li      a7, 1               # the service put
        ecall
        li      a0, 0               # the code
        li      a7, 0               # the service exit
        ecall

# The routine that hands out a block of two words: a0 points to it. 0 in s1 chooses the machine's heap.
hand_out:
        bne     s1, zero, from_the_list
        li      a0, 8               # so many bytes
        li      a7, 48              # the service malloc
        ecall
        .label  1
        ret
from_the_list:
        lw      a0, 0xA8(zero)      # the first free block
        lw      t0, 0(a0)           # the one behind it
        sw      t0, 0xA8(zero)      # is now the first
        .label  1
        ret

# The program's own heap: a list of free blocks, in which the first word of each says where the next one is. The operand
# 0xA8(zero) can't have a name for its number, so the list has a fixed place.
        .data
        .org    0xA8
first_free:
        .word   block_a
block_a:
        .word   block_b
        .word   0
block_b:
        .word   block_c
        .word   0
block_c:
        .zero   2                   # 0: the last one
