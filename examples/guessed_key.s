# A key's number in place of the key. The program makes a key, seals the letter S with it, and in the end unseals the
# letter with its key and puts it. A guest may say which key it has, by a byte of the input, and the program takes that
# number for the key.
#
# The first letter of the input says who seals: `m` the machine, by the services 16 to 18, which sealing offers; any
# other letter the program itself: its keys are numbers, a word beside the value says which one sealed it, and it
# trusts everybody not to look at the value.
#
# Who says nothing lets the program use its own key:
#
# run: ./pump run examples/guessed_key.img
# input: o
# out: S
# err: stop 0 exit 0\n
# status: 0
#
# run: ./pump run examples/guessed_key.img --policy seal
# input: m
# out: S
# err: stop 0 exit 0\n
# status: 0
#
# The program's own sealing answers N to a wrong number:
#
# run: ./pump run examples/guessed_key.img
# input: o\x05
# out: N
# err: stop 0 exit 0\n
# status: 0
#
# The attack:
#
# 1. The guest guesses the number of the key. Numbers are given from 0, so the byte 00 is a good guess.
# 2. Nobody gave the guest the key. But where a key is its number, who says the number has it.
# 3. The program unseals the letter with it, and puts the letter.
#
# run: ./pump run examples/guessed_key.img
# input: o\x00
# out: S
# err: stop 0 exit 0\n
# status: 0
#
# Under sealing, with the machine's keys, the unsealing is refused:
#
# 1. The key has the number 0 there as well, but that it is a key its tag says: s0 is tagged key(0).
# 2. Only service 16 makes such a tag, and moves, loads and stores of the whole word carry it on. What the service get
#    answers is tagged data, whatever its value is, and so is s0 after the move.
# 3. Service 18 asks a key of a1. It is a service that is refused, so the line tells the ECALL at 000000A8.
#
# run: ./pump run examples/guessed_key.img --policy seal
# input: m\x00
# err: stop 0 violation seal args pc 000000A8\n
# status: 4
#
# The policy guards what its own services seal. What the program seals itself is ordinary data to it:
#
# run: ./pump run examples/guessed_key.img --policy seal
# input: o\x00
# out: S
# err: stop 0 exit 0\n
# status: 0
#
# And without the policy no one offers service 16.
#
# run: ./pump run examples/guessed_key.img
# input: m\x00
# err: stop 0 fault noservice 16\n
# status: 5

        .ram    256
        .entry  0, start
        .data                       # no word is listed as code: only control flow asks for that

start:
        li      a7, 2               # the service get:
        ecall                       # a0 is the first letter of the input
        addi    s1, a0, -109        # 0 for the letter m: the machine's sealing
        jal     ra, make_key
        mv      s0, a0              # s0 is the key
        li      a0, 83              # the letter S
        mv      a1, s0
        jal     ra, seal
        mv      s2, a0              # s2 is the sealed letter
        li      a0, 0               # the service get asks data of a0, too
        li      a7, 2               # the service get:
        ecall                       # a0 is the number of the guest's key, or FFFFFFFF
        blt     a0, zero, open      # where nothing is said, s0 stays
        mv      s0, a0              # takes the number for the key

open:
        mv      a0, s2
        mv      a1, s0
        jal     ra, unseal
        li      a7, 1               # the service put
        ecall
        li      a0, 0               # the code
        li      a7, 0               # the service exit
        ecall

# The routine that makes a key: a0 is the key. 0 in s1 chooses the machine's sealing.
make_key:
        bne     s1, zero, next_number
        li      a7, 16              # the service mkkey
        ecall
        ret
next_number:
        la      t0, next_key
        lw      a0, 0(t0)           # the number of the next key
        addi    t1, a0, 1
        sw      t1, 0(t0)
        ret

# The routine that seals a0 with the key in a1
seal:
        bne     s1, zero, note_the_key
        li      a7, 17              # the service seal
        ecall
        ret
note_the_key:
        la      t0, sealed_by
        sw      a1, 0(t0)           # the value stays as it is
        ret

# The routine that unseals a0 with the key in a1
unseal:
        bne     s1, zero, compare_keys
        li      a7, 18              # the service unseal
        ecall                       # 000000A8: refused where a1 is no key
        ret
compare_keys:
        la      t0, sealed_by
        lw      t0, 0(t0)           # the key that sealed
        beq     t0, a1, unsealed
        li      a0, 78              # the letter N: it was another key
unsealed:
        ret

# The program's own sealing
next_key:
        .word   0
sealed_by:
        .word   0
