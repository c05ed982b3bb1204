# A pass that is given back twice. A guest gets a pass, a block, and gives it back once for each further byte of the
# input; the program doesn't look whether it was given back before. Then two accounts get a block each: the first has 5,
# the second 9. In the end the program puts what the first one has.
#
# The first letter of the input says who hands out the blocks: `m` the machine, by the services 48 and 49, which heap
# safety offers; any other letter the program itself, from a list of free blocks that it keeps in ordinary memory.
#
# A guest who gives the pass back once does no harm:
#
# run: ./pump run examples/double_free.img
# input: ox
# out: 5
# err: stop 0 exit 0\n
# status: 0
#
# run: ./pump run examples/double_free.img --policy heap
# input: mx
# out: 5
# err: stop 0 exit 0\n
# status: 0
#
# The attack:
#
# 1. The pass, block_a at 000000AC, is given back. It is now the first of the free blocks, and behind it is block_b.
# 2. It is given back again. It is put in front of the list once more, so now the one behind it is itself.
# 3. The first account gets block_a, and the list says that the first free block is block_a.
# 4. The second account gets the same block. What is stored for it is stored over what the first one has.
#
# run: ./pump run examples/double_free.img
# input: oxx
# out: 9
# err: stop 0 exit 0\n
# status: 0
#
# Under heap safety, with the machine's heap, the second free is refused:
#
# 1. The pass is the block with the number 0, and s0 is tagged ptr(0).
# 2. The first call of service 49 takes it back: the block 0 is no more live, and no later block gets its number.
# 3. The second call comes with ptr(0) again, and there is no live block 0: `notlive`. It is a service that is refused,
#    so the line tells the ECALL at 0000008C. Memory and the live blocks are as they were before it.
#
# run: ./pump run examples/double_free.img --policy heap
# input: mxx
# err: stop 0 violation heap notlive pc 0000008C\n
# status: 4
#
# The policy guards the blocks that its own services hand out. Those of the program's own heap are ordinary memory to
# it:
#
# run: ./pump run examples/double_free.img --policy heap
# input: oxx
# out: 9
# err: stop 0 exit 0\n
# status: 0
#
# And without the policy no one offers service 48.
#
# run: ./pump run examples/double_free.img
# input: mxx
# err: stop 0 fault noservice 48\n
# status: 5

        .ram    256
        .heap   0xE0, 32            # for heap safety: the region of the machine's heap
        .entry  0, start
        .data                       # no word is listed as code: only control flow asks for that

start:
        li      a7, 2               # the service get:
        ecall                       # a0 is the first letter of the input
        addi    s1, a0, -109        # 0 for the letter m: the machine's heap
        jal     ra, hand_out        # a block for the pass
        mv      s0, a0              # s0 points to the pass

# Each further byte of the input gives the pass back.
next:
        li      a7, 2               # the service get:
        ecall                       # a0 is the next byte, or FFFFFFFF at the end
        blt     a0, zero, accounts  # only FFFFFFFF is below 0
        mv      a0, s0              # nobody asks whether it was given back before
        jal     ra, take_back
        j       next

# Two accounts get a block each. What one has is the second word of its block.
accounts:
        jal     ra, hand_out
        mv      s2, a0              # s2 points to the first account
        li      t0, 53              # the digit 5
        sw      t0, 4(s2)
        jal     ra, hand_out        # the second account
        li      t0, 57              # the digit 9
        sw      t0, 4(a0)
        lw      a0, 4(s2)           # what the first one has
        li      a7, 1               # the service put
        ecall
        li      a0, 0               # the code
        li      a7, 0               # the service exit
        ecall

# The routine that hands out a block of two words: a0 points to it. 0 in s1 chooses the machine's heap.
hand_out:
        bne     s1, zero, from_the_list
        li      a0, 8               # so many bytes
        li      a7, 48              # the service malloc
        ecall
        ret
from_the_list:
        lw      a0, 0xA8(zero)      # the first free block
        lw      t0, 0(a0)           # the one behind it
        sw      t0, 0xA8(zero)      # is now the first
        ret

# The routine that takes back the block at a0
take_back:
        bne     s1, zero, to_the_list
        li      a7, 49              # the service free
        ecall                       # 0000008C: refused where no live block begins at a0
        ret
to_the_list:
        lw      t0, 0xA8(zero)      # the first free block
        sw      t0, 0(a0)           # stands behind the one that is given back,
        sw      a0, 0xA8(zero)      # which is now the first
        ret

# The program's own heap: a list of free blocks, in which the first word of each says where the next one is. The operand
# 0xA8(zero) can't have a name for its number, so the list has a fixed place.
        .org    0xA8
first_free:
        .word   block_a
block_a:
        .word   block_b
        .word   0
block_b:
        .word   block_c
        .word   0
block_c:
        .zero   2                   # 0: the last one
