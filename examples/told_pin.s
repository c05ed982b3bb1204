# A PIN that a program tells in five ways. The PIN is one byte, here the digit 5, which is 00000035, and the program reads
# two letters: where it has the PIN from, and how it tells it.
#
# The first letter of the input says who keeps the PIN: `m` the machine, by the service 64, which secrecy offers: it
# answers the bytes of a secret file, one after the other, here those of examples/pin.secret; any other letter the
# program itself, in a word of its image. Without the policy no one offers service 64:
#
# run: ./pump run examples/told_pin.img
# input: mp
# err: stop 0 fault noservice 64\n
# status: 5
#
# The next letter says how the PIN is told. With `p` the program puts it:
#
# run: ./pump run examples/told_pin.img
# input: op
# out: 5
# err: stop 0 exit 0\n
# status: 0
#
# With `b` a branch compares it, and Y is put where it is 5, and N where it is not:
#
# run: ./pump run examples/told_pin.img
# input: ob
# out: Y
# err: stop 0 exit 0\n
# status: 0
#
# With `a` it is the address of a load. 00000035 is no multiple of 4, and the line of the stop tells the address:
#
# run: ./pump run examples/told_pin.img
# input: oa
# err: stop 0 fault loadalign 00000035\n
# status: 5
#
# With `w` it is stored, and the program jumps there. 00000035 is no instruction, and the line tells the word:
#
# run: ./pump run examples/told_pin.img
# input: ow
# err: stop 0 fault illegal 00000035\n
# status: 5
#
# With `d` 4,000 is divided by it, and the quotient is put. Who reads K, which is 75, knows the PIN: of all bytes only 53,
# the digit 5, has that quotient.
#
# run: ./pump run examples/told_pin.img
# input: od
# out: K
# err: stop 0 exit 0\n
# status: 0
#
# Under secrecy the PIN of the machine is tagged secret, and the program is stopped where it would tell it:
#
# 1. The service put asks open values: the ECALL at 000000AC is refused. `put` is the group of an ECALL with 1 in a7.
# 2. No branch looks at a secret value: the BEQ at 00000078 is refused before it is decided.
# 3. No address is secret: the LW at 00000084 is refused before its alignment is checked, so that the line tells the
#    place of the load and not its address.
# 4. The SW at 00000094 keeps the tag in memory. No secret word is executed: the hart is stopped at the word, 000000B4,
#    before it is decoded.
# 5. The DIV at 000000A4 goes on, and its quotient is secret. It is refused to be put.
#
# run: ./pump run examples/told_pin.img --policy secret --secret examples/pin.secret
# input: mp
# err: stop 0 violation secret rule(put) pc 000000AC\n
# status: 4
#
# run: ./pump run examples/told_pin.img --policy secret --secret examples/pin.secret
# input: mb
# err: stop 0 violation secret peek pc 00000078\n
# status: 4
#
# run: ./pump run examples/told_pin.img --policy secret --secret examples/pin.secret
# input: ma
# err: stop 0 violation secret peek pc 00000084\n
# status: 4
#
# run: ./pump run examples/told_pin.img --policy secret --secret examples/pin.secret
# input: mw
# err: stop 0 violation secret peek pc 000000B4\n
# status: 4
#
# run: ./pump run examples/told_pin.img --policy secret --secret examples/pin.secret
# input: md
# err: stop 0 violation secret rule(put) pc 000000AC\n
# status: 4
#
# Of a PIN that it doesn't tell nothing is seen:
#
# run: ./pump run examples/told_pin.img --policy secret --secret examples/pin.secret
# input: m
# err: stop 0 exit 0\n
# status: 0
#
# The policy guards what its own service answers. What the program keeps itself is ordinary data to it:
#
# run: ./pump run examples/told_pin.img --policy secret --secret examples/pin.secret
# input: ob
# out: Y
# err: stop 0 exit 0\n
# status: 0

        .ram    256
        .entry  0, start
        .data                       # no word is listed as code: only control flow asks for that

start:
        li      a7, 2               # the service get:
        ecall                       # a0 is the first letter of the input
        li      t0, 109             # the letter m
        beq     a0, t0, ask
        la      t0, own
        lw      s0, 0(t0)           # s0 is the program's own PIN
        j       how
ask:
        li      a7, 64              # the service of secrecy:
        ecall                       # a0 is the first secret byte
        mv      s0, a0              # a move keeps the tag: s0 is secret
how:
        li      a7, 2               # the service get:
        ecall                       # a0 says how the PIN is told
        li      t0, 112             # the letter p
        beq     a0, t0, by_put
        li      t0, 98              # the letter b
        beq     a0, t0, by_branch
        li      t0, 97              # the letter a
        beq     a0, t0, by_address
        li      t0, 119             # the letter w
        beq     a0, t0, by_word
        li      t0, 100             # the letter d
        beq     a0, t0, by_division
end:
        li      a0, 0               # the code
        li      a7, 0               # the service exit
        ecall

by_put:
        mv      a0, s0
        j       put

by_branch:
        li      a0, 89              # the letter Y
        li      t0, 53              # the digit 5
        beq     s0, t0, put         # refused where s0 is secret
        li      a0, 78              # the letter N
        j       put

by_address:
        lw      a0, 0(s0)           # refused where s0 is secret
        j       end

by_word:
        la      t0, word
        sw      s0, 0(t0)           # the tag goes with it
        j       word                # the jump is done, and the word that it leads to refused where it is secret

by_division:
        li      t0, 4000
        div     a0, t0, s0          # secret where s0 is
put:
        li      a7, 1               # the service put
        ecall                       # refused where a0 is secret
        j       end

# Where the PIN is stored to be executed
word:
        .word   0

# The program's own PIN
own:
        .word   53                  # the digit 5
