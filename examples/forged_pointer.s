# A number that is taken for a pointer. The program has two blocks: a note for its guest, the letter N, and a secret,
# the letter S. It puts the note. A guest may say where the note is, by a byte of the input, and the program believes
# it.
#
# The first letter of the input says who hands out the blocks: `m` the machine, by the services 48 and 49, which heap
# safety offers; any other letter the program itself, from a list of free blocks that it keeps in ordinary memory.
#
# Who says nothing gets the note:
#
# run: ./pump run examples/forged_pointer.img
# input: o
# out: N
# err: stop 0 exit 0\n
# status: 0
#
# run: ./pump run examples/forged_pointer.img --policy heap
# input: m
# out: N
# err: stop 0 exit 0\n
# status: 0
#
# The attack:
#
# 1. The guest knows, or tries, where blocks are: the secret is in the second one, block_b at 000000B4.
# 2. The byte B4 of the input is that address. Nobody gave the guest a pointer to that block; it is made of a number.
# 3. The program loads from there, and puts the secret.
#
# run: ./pump run examples/forged_pointer.img
# input: o\xB4
# out: S
# err: stop 0 exit 0\n
# status: 0
#
# Under heap safety, with the machine's heap, the load is refused. There the secret is at 000000E8:
#
# 1. Its block has the number 1, and its words are tagged cell(1,val). They are reached by what is tagged ptr(1) alone.
# 2. Only service 48 makes such a pointer of anything else. What the service get answers is tagged val, whatever its
#    value is, and so is s0 after the move.
# 3. The load at 00000038 goes by a val to a word of the heap region. `loadword` is the group of LW.
#
# run: ./pump run examples/forged_pointer.img --policy heap
# input: m\xE8
# err: stop 0 violation heap rule(loadword) pc 00000038\n
# status: 4
#
# The address of the guest's own note, 000000E0, is no pointer either:
#
# run: ./pump run examples/forged_pointer.img --policy heap
# input: m\xE0
# err: stop 0 violation heap rule(loadword) pc 00000038\n
# status: 4
#
# Outside the heap region a number reaches every word, so what the program keeps there is as open as ever: here the
# first word of block_a, at 000000AC, which is the address of block_b, the next free one.
#
# run: ./pump run examples/forged_pointer.img --policy heap
# input: m\xAC
# out: \xB4
# err: stop 0 exit 0\n
# status: 0
#
# The policy guards the blocks that its own services hand out. Those of the program's own heap are ordinary memory to
# it:
#
# run: ./pump run examples/forged_pointer.img --policy heap
# input: o\xB4
# out: S
# err: stop 0 exit 0\n
# status: 0
#
# And without the policy no one offers service 48.
#
# run: ./pump run examples/forged_pointer.img
# input: m\xE8
# err: stop 0 fault noservice 48\n
# status: 5

        .ram    256
        .heap   0xE0, 32            # for heap safety: the region of the machine's heap
        .entry  0, start
        .data                       # no word is listed as code: only control flow asks for that

start:
        li      a7, 2               # the service get:
        ecall                       # a0 is the first letter of the input
        addi    s1, a0, -109        # 0 for the letter m: the machine's heap
        jal     ra, hand_out        # a block for the note
        mv      s0, a0              # s0 points to the note
        li      t0, 78              # the letter N
        sw      t0, 0(s0)
        jal     ra, hand_out        # a block for the secret
        li      t0, 83              # the letter S
        sw      t0, 0(a0)
        li      a7, 2               # the service get:
        ecall                       # a0 is where the note is said to be, or FFFFFFFF
        blt     a0, zero, look_up   # where nothing is said, s0 stays
        mv      s0, a0              # takes the number for a pointer

look_up:
        lw      a0, 0(s0)           # 00000038: the note, refused where s0 is a number
        li      a7, 1               # the service put
        ecall
        li      a0, 0               # the code
        li      a7, 0               # the service exit
        ecall

# The routine that hands out a block of two words: a0 points to it. 0 in s1 chooses the machine's heap.
hand_out:
        bne     s1, zero, from_the_list
        li      a0, 8               # so many bytes
        li      a7, 48              # the service malloc
        ecall
        ret
from_the_list:
        lw      a0, 0xA8(zero)      # the first free block
        lw      t0, 0(a0)           # the one behind it
        sw      t0, 0xA8(zero)      # is now the first
        ret

# The program's own heap: a list of free blocks, in which the first word of each says where the next one is. The operand
# 0xA8(zero) can't have a name for its number, so the list has a fixed place.
        .org    0xA8
first_free:
        .word   block_a
block_a:
        .word   block_b
        .word   0
block_b:
        .word   block_c
        .word   0
block_c:
        .zero   2                   # 0: the last one
