# Two harts race a free against a use. Hart 0 has a pass, a block with a rank, the letter G, and hands its address to
# hart 1 by a word of memory. Hart 1 looks at the pass for a while and then puts the rank. Who leaves a note, one
# letter, has no pass any more: hart 0 gives it back, and takes a block for the note.
#
# The first letter of the input says who hands out the blocks: `m` the machine, by the services 48 and 49, which heap
# safety offers; any other letter the program itself, from a list of free blocks that it keeps in ordinary memory.
#
# Who leaves no note keeps the pass:
#
# run: ./pump run examples/race.img
# input: o
# out: G
# err: stop 0 exit 0\n
# err: stop 1 exit 0\n
# status: 0
#
# run: ./pump run examples/race.img --policy heap
# input: m
# out: G
# err: stop 0 exit 0\n
# err: stop 1 exit 0\n
# status: 0
#
# The attack, here with the note A. The harts take turns, 0, 1, 0, 1, ..:
#
# 1. Hart 1 finds the address of the pass in the word, and begins to look at it.
# 2. Meanwhile hart 0 takes the address out of the word again and gives the pass back. But hart 1 has it in s0.
# 3. Hart 0 gets a block for the note: the program's heap hands out the one that was given back last.
# 4. Hart 1 is done with looking, and puts as the rank what the guest wrote.
#
# run: ./pump run examples/race.img
# input: oA
# out: A
# err: stop 0 exit 0\n
# err: stop 1 exit 0\n
# status: 0
#
# Where hart 1 is quicker, no harm is done: it depends on the order of turns alone, and with the shell's commands in
# race.cmd they take both.
#
# Under heap safety, with the machine's heap, hart 1 is stopped, and hart 0 goes on:
#
# 1. The pass is the block with the number 0. A pointer is stored and loaded with its tag, so s0 of hart 1 is ptr(0).
# 2. Blocks are live or not for all harts: service 49, called by hart 0, takes the block 0 back for hart 1, too.
# 3. The note is the block 1. The load at 00000064 goes by ptr(0) to a word tagged cell(1,val). `loadword` is the group
#    of LW. Whatever the order of turns is, this load finds the pass, or it is refused.
#
# run: ./pump run examples/race.img --policy heap
# input: mA
# err: stop 0 exit 0\n
# err: stop 1 violation heap rule(loadword) pc 00000064\n
# status: 4
#
# The policy guards the blocks that its own services hand out. Those of the program's own heap are ordinary memory to
# it:
#
# run: ./pump run examples/race.img --policy heap
# input: oA
# out: A
# err: stop 0 exit 0\n
# err: stop 1 exit 0\n
# status: 0
#
# And without the policy no one offers service 48. Then hart 1 waits for the pass in vain.
#
# run: ./pump run examples/race.img --turns 1000
# input: mA
# err: stop 0 fault noservice 48\n
# err: turns spent\n
# status: 5

        .ram    256
        .harts  2
        .heap   0xE0, 32            # for heap safety: the region of the machine's heap
        .entry  0, owner
        .entry  1, user
        .data                       # no word is listed as code: only control flow asks for that

# Hart 0
owner:
        li      a7, 2               # the service get:
        ecall                       # a0 is the first letter of the input
        addi    s1, a0, -109        # 0 for the letter m: the machine's heap
        jal     ra, hand_out        # a block for the pass
        li      t0, 71              # the letter G
        sw      t0, 4(a0)           # the rank, the second word of the pass
        mv      s0, a0              # s0 points to the pass
        sw      s0, 0xC4(zero)      # into the word pass, for hart 1
        li      a7, 2               # the service get:
        ecall                       # a0 is the letter of the note, or FFFFFFFF without one
        blt     a0, zero, done      # without one, the guest keeps the pass
        mv      s2, a0              # the letter
        sw      zero, 0xC4(zero)    # from here on hart 1 finds no pass
        mv      a0, s0
        jal     ra, take_back       # nobody asks whether hart 1 still looks at it
        jal     ra, hand_out        # a block for the note
        sw      s2, 4(a0)           # the letter, the second word of the note
done:
        li      a0, 0               # the code
        li      a7, 0               # the service exit
        ecall

# Hart 1
user:
        lw      s0, 0xC4(zero)      # the address of the pass
        beq     s0, zero, user      # while there is none, looks again
        li      t0, 12
look:
        addi    t0, t0, -1          # looks at it for a while
        bne     t0, zero, look
        lw      a0, 4(s0)           # 00000064: the rank, refused where the pass was given back
        li      a7, 1               # the service put
        ecall
        li      a0, 0               # the code
        li      a7, 0               # the service exit
        ecall

# The routine that hands out a block of two words: a0 points to it. 0 in s1 chooses the machine's heap.
hand_out:
        bne     s1, zero, from_the_list
        li      a0, 8               # so many bytes
        li      a7, 48              # the service malloc
        ecall
        ret
from_the_list:
        lw      a0, 0xC8(zero)      # the first free block
        lw      t0, 0(a0)           # the one behind it
        sw      t0, 0xC8(zero)      # is now the first
        ret

# The routine that takes back the block at a0
take_back:
        bne     s1, zero, to_the_list
        li      a7, 49              # the service free
        ecall
        ret
to_the_list:
        lw      t0, 0xC8(zero)      # the first free block
        sw      t0, 0(a0)           # stands behind the one that is given back,
        sw      a0, 0xC8(zero)      # which is now the first
        ret

# What the harts share, and the program's own heap: a list of free blocks, in which the first word of each says where
# the next one is. The operand 0xC4(zero) can't have a name for its number, so these words have fixed places.
        .org    0xC4
pass:
        .word   0                   # where the pass is, or 0
first_free:
        .word   block_a
block_a:
        .word   block_b
        .word   0
block_b:
        .zero   2                   # 0: the last one
