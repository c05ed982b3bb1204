# A PIN that is checked and not told. A guess of one digit is compared with a PIN of one byte, and where both are the same a
# credit of 5 becomes 9. No branch decides that: the comparison makes a 1 or a 0, and four times that is added. In the end
# the program puts the letter C, for checked, and ends with 0.
#
# The PIN is the first byte of a secret file, here the digit 5 of examples/pin.secret, which the service 64 answers under
# secrecy. Without the policy no one offers it:
#
# run: ./pump run examples/checked_pin.img
# input: 5
# err: stop 0 fault noservice 64\n
# status: 5
#
# Under the policy the PIN is tagged secret, and so is all that is computed from it: the comparison, the product, the sum,
# and the word of the credit once the sum is stored there. A right guess and a wrong one show the same:
#
# run: ./pump run examples/checked_pin.img --policy secret --secret examples/pin.secret
# input: 5
# out: C
# err: stop 0 exit 0\n
# status: 0
#
# run: ./pump run examples/checked_pin.img --policy secret --secret examples/pin.secret
# input: 7
# out: C
# err: stop 0 exit 0\n
# status: 0
#
# That is the policy's price: nothing makes a secret value open again, so the program can't say either whether the guess
# was right. With `t` behind the guess it tries to, and puts the credit; the ECALL at 00000058 is refused.
#
# run: ./pump run examples/checked_pin.img --policy secret --secret examples/pin.secret
# input: 5t
# err: stop 0 violation secret rule(put) pc 00000058\n
# status: 4
#
# run: ./pump run examples/checked_pin.img --policy secret --secret examples/pin.secret
# input: 7t
# err: stop 0 violation secret rule(put) pc 00000058\n
# status: 4
#
# Where no secret file is given there are no secret bytes, and FFFFFFFF is answered, which is no digit. It is secret, too.
#
# run: ./pump run examples/checked_pin.img --policy secret
# input: 5
# out: C
# err: stop 0 exit 0\n
# status: 0
#
# Other policies beside it change nothing here.
#
# run: ./pump run examples/checked_pin.img --policy seal,comp,heap,secret --secret examples/pin.secret
# input: 7t
# err: stop 0 violation secret rule(put) pc 00000058\n
# status: 4

        .ram    256
        .entry  0, start
        .data                       # no word is listed as code: only control flow asks for that

start:
        li      a7, 2               # the service get:
        ecall                       # a0 is the guess
        mv      s0, a0
        ecall                       # a0 is the letter behind it, or FFFFFFFF at the end
        mv      s1, a0
        li      a7, 64              # the service of secrecy:
        ecall                       # a0 is the PIN, tagged secret

        xor     t0, a0, s0          # 0 where both are the same
        sltiu   t0, t0, 1           # 1 there, and else 0
        li      t1, 4
        mul     t0, t0, t1
        la      t1, credit
        lw      t2, 0(t1)
        add     t2, t2, t0
        sw      t2, 0(t1)           # from here on the word is secret

        li      t0, 116             # the letter t
        beq     s1, t0, tell        # the guess's letter is open, and decides
        li      a0, 67              # the letter C: done, whatever came of it
        j       put
tell:
        lw      a0, 0(t1)
put:
        li      a7, 1               # the service put
        ecall                       # refused where a0 is secret
        li      a0, 0               # the code
        li      a7, 0               # the service exit
        ecall

credit:
        .word   53                  # the digit 5
