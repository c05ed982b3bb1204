# A messenger that looks into what it carries. The program seals a word, the four letters GOLD, and gives it to a
# messenger, who keeps it in memory and hands it back. Then the program unseals it, and puts Y where it is the word
# that was sealed.
#
# The first letter of the input says who seals: `m` the machine, by the services 16 to 18, which sealing offers; any
# other letter the program itself: its keys are numbers, a word beside the value says which one sealed it, and it
# trusts everybody not to look at the value.
#
# A messenger who does its work needs no key for it. Who has a sealed value may move, store and load it:
#
# run: ./pump run examples/sealed_word.img
# input: o
# out: Y
# err: stop 0 exit 0\n
# status: 0
#
# run: ./pump run examples/sealed_word.img --policy seal
# input: m
# out: Y
# err: stop 0 exit 0\n
# status: 0
#
# The next letter of the input says what a bad one does. With `p` the messenger puts the sealed word, which puts out its
# low byte:
#
# run: ./pump run examples/sealed_word.img
# input: op
# out: GY
# err: stop 0 exit 0\n
# status: 0
#
# With `b` it reads the word that it keeps a byte at a time, and puts each of them:
#
# run: ./pump run examples/sealed_word.img
# input: ob
# out: GOLDY
# err: stop 0 exit 0\n
# status: 0
#
# Under sealing, with the machine's keys, both are refused:
#
# 1. The sealed word is tagged sealed(0). The store at 00000060 keeps that tag in memory, and each load of the whole
#    word brings it back.
# 2. The service put asks data of a0: the ECALL at 00000088 is refused. `put` is the group of an ECALL with 1 in a7.
# 3. A load of a part asks data of the word that it reads: the LB at 0000009C is refused. `loadpart` is its group.
#
# run: ./pump run examples/sealed_word.img --policy seal
# input: mp
# err: stop 0 violation seal rule(put) pc 00000088\n
# status: 4
#
# run: ./pump run examples/sealed_word.img --policy seal
# input: mb
# err: stop 0 violation seal rule(loadpart) pc 0000009C\n
# status: 4
#
# The policy guards what its own services seal. What the program seals itself is ordinary data to it:
#
# run: ./pump run examples/sealed_word.img --policy seal
# input: ob
# out: GOLDY
# err: stop 0 exit 0\n
# status: 0
#
# And without the policy no one offers service 16.
#
# run: ./pump run examples/sealed_word.img
# input: mb
# err: stop 0 fault noservice 16\n
# status: 5

        .ram    512
        .entry  0, start
        .data                       # no word is listed as code: only control flow asks for that

start:
        li      a7, 2               # the service get:
        ecall                       # a0 is the first letter of the input
        addi    s1, a0, -109        # 0 for the letter m: the machine's sealing
        jal     ra, make_key
        mv      s0, a0              # s0 is the key
        li      s2, 0x444C4F47      # GOLD: the lowest byte is the first one, the letter G
        mv      a0, s2
        mv      a1, s0
        jal     ra, seal
        jal     ra, messenger       # carries a0, and hands it back there
        mv      a1, s0
        jal     ra, unseal
        li      t0, 78              # the letter N
        bne     a0, s2, answer
        li      t0, 89              # the letter Y: it is the same word
answer:
        mv      a0, t0
        li      a7, 1               # the service put
        ecall
        li      a0, 0               # the code
        li      a7, 0               # the service exit
        ecall

# The messenger: keeps what is in a0, and hands it back. It is not given the key.
messenger:
        la      t1, kept
        sw      a0, 0(t1)           # 00000060: the tag goes with it
        li      a0, 0               # the service get asks data of a0, too
        li      a7, 2               # the service get:
        ecall                       # a0 says what the messenger does
        addi    t2, a0, -98
        beq     t2, zero, by_bytes  # the letter b
        addi    t2, a0, -112
        lw      a0, 0(t1)           # the word, as a whole
        bne     t2, zero, hand_back # another letter than p, or none
        li      a7, 1               # the service put
        ecall                       # 00000088: refused where a0 is sealed
hand_back:
        ret

# Reads the bytes of the kept word, one after the other.
by_bytes:
        mv      t2, t1
        addi    t3, t1, 4           # behind the last one
        li      a7, 1               # the service put
next_byte:
        lb      a0, 0(t2)           # 0000009C: refused where the word is sealed
        ecall
        addi    t2, t2, 1
        bne     t2, t3, next_byte
        lw      a0, 0(t1)           # the word, as a whole
        ret

# The routine that makes a key: a0 is the key. 0 in s1 chooses the machine's sealing.
make_key:
        bne     s1, zero, next_number
        li      a7, 16              # the service mkkey
        ecall
        ret
next_number:
        la      t0, next_key
        lw      a0, 0(t0)           # the number of the next key
        addi    t1, a0, 1
        sw      t1, 0(t0)
        ret

# The routine that seals a0 with the key in a1
seal:
        bne     s1, zero, note_the_key
        li      a7, 17              # the service seal
        ecall
        ret
note_the_key:
        la      t0, sealed_by
        sw      a1, 0(t0)           # the value stays as it is
        ret

# The routine that unseals a0 with the key in a1
unseal:
        bne     s1, zero, compare_keys
        li      a7, 18              # the service unseal
        ecall
        ret
compare_keys:
        la      t0, sealed_by
        lw      t0, 0(t0)           # the key that sealed
        beq     t0, a1, unsealed
        li      a0, 0               # it was another key
unsealed:
        ret

# Where the messenger keeps what it carries
kept:
        .word   0

# The program's own sealing
next_key:
        .word   0
sealed_by:
        .word   0
