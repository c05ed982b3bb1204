# A pass that is used after it was given back. A guest gets a pass, a block with the guest's rank, the letter G. Who
# leaves a note, one letter, goes: the pass is given back, and the note gets a block of its own. In the end the program
# puts the rank.
#
# The first letter of the input says who hands out the blocks: `m` the machine, by the services 48 and 49, which heap
# safety offers; any other letter the program itself, from a list of free blocks that it keeps in ordinary memory.
#
# Who leaves no note stays and keeps the pass:
#
# run: ./pump run examples/use_after_free.img
# input: o
# out: G
# err: stop 0 exit 0\n
# status: 0
#
# run: ./pump run examples/use_after_free.img --policy heap
# input: m
# out: G
# err: stop 0 exit 0\n
# status: 0
#
# The attack, here with the note A:
#
# 1. The guest goes. The pass is given back, and s0 still has its address.
# 2. The note gets a block. The program's heap hands out the one that was given back last: that of the pass.
# 3. The note is stored there. Its A now stands where the G stood.
# 4. The program looks up the rank by s0, and puts what the guest wrote.
#
# run: ./pump run examples/use_after_free.img
# input: oA
# out: A
# err: stop 0 exit 0\n
# status: 0
#
# Under heap safety, with the machine's heap, the look-up is refused:
#
# 1. The pass is the block with the number 0, and s0 is tagged ptr(0). A move keeps that tag.
# 2. Service 49 takes the block back: its words become 0 and free.
# 3. The note's block stands at the same place, the first that fits. But a number is never given again: it is the block
#    1, its words are tagged cell(1,val), and what points to it is tagged ptr(1).
# 4. The load at 0000003C goes by ptr(0) to a word of the block 1. `loadword` is the group of LW.
#
# run: ./pump run examples/use_after_free.img --policy heap
# input: mA
# err: stop 0 violation heap rule(loadword) pc 0000003C\n
# status: 4
#
# The policy guards the blocks that its own services hand out. Those of the program's own heap are ordinary memory to
# it:
#
# run: ./pump run examples/use_after_free.img --policy heap
# input: oA
# out: A
# err: stop 0 exit 0\n
# status: 0
#
# And without the policy no one offers service 48.
#
# run: ./pump run examples/use_after_free.img
# input: mA
# err: stop 0 fault noservice 48\n
# status: 5

        .ram    256
        .heap   0xE0, 32            # for heap safety: the region of the machine's heap
        .entry  0, start
        .data                       # no word is listed as code: only control flow asks for that

start:
        li      a7, 2               # the service get:
        ecall                       # a0 is the first letter of the input
        addi    s1, a0, -109        # 0 for the letter m: the machine's heap
        jal     ra, hand_out        # a block for the pass
        mv      s0, a0              # s0 points to the pass
        li      t0, 71              # the letter G
        sw      t0, 4(s0)           # the rank, the second word of the pass
        li      a7, 2               # the service get:
        ecall                       # a0 is the letter of the note, or FFFFFFFF without one
        blt     a0, zero, look_up   # without one, the guest stays

# The guest goes.
        mv      s2, a0              # the letter
        mv      a0, s0
        jal     ra, take_back       # the pass is given back, and s0 keeps its address
        jal     ra, hand_out        # a block for the note
        sw      s2, 4(a0)           # the letter, the second word of the note

look_up:
        lw      a0, 4(s0)           # 0000003C: the rank, refused where the pass was given back
        li      a7, 1               # the service put
        ecall
        li      a0, 0               # the code
        li      a7, 0               # the service exit
        ecall

# The routine that hands out a block of two words: a0 points to it. 0 in s1 chooses the machine's heap.
hand_out:
        bne     s1, zero, from_the_list
        li      a0, 8               # so many bytes
        li      a7, 48              # the service malloc
        ecall
        ret
from_the_list:
        lw      a0, 0xA8(zero)      # the first free block
        lw      t0, 0(a0)           # the one behind it
        sw      t0, 0xA8(zero)      # is now the first
        ret

# The routine that takes back the block at a0
take_back:
        bne     s1, zero, to_the_list
        li      a7, 49              # the service free
        ecall
        ret
to_the_list:
        lw      t0, 0xA8(zero)      # the first free block
        sw      t0, 0(a0)           # stands behind the one that is given back,
        sw      a0, 0xA8(zero)      # which is now the first
        ret

# The program's own heap: a list of free blocks, in which the first word of each says where the next one is. The operand
# 0xA8(zero) can't have a name for its number, so the list has a fixed place.
        .org    0xA8
first_free:
        .word   block_a
block_a:
        .word   block_b
        .word   0
block_b:
        .word   block_c
        .word   0
block_c:
        .zero   2                   # 0: the last one
