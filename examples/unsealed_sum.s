# Seals the value 7 under a key, unseals it with the same key and adds 1: what is unsealed is data again, so that the
# sum may be made and its digit put.
#
# run: ./pump run examples/unsealed_sum.img --policy seal
# out: 8
# err: stop 0 exit 0\n
# status: 0

        .ram    64
        .entry  0, start
        .data                       # no word is listed as code: only control flow asks for that

start:
        li      a7, 16              # the service mkkey makes a key:
        ecall                       # a0 is 0, tagged key(0)
        mv      a1, a0              # a move keeps the tag: a1 is the key

        li      a0, 7               # the value
        li      a7, 17              # the service seal takes a0 and the key in a1:
        ecall                       # a0 is 7, tagged sealed(0)

        li      a7, 18              # the service unseal takes a0 and the key in a1:
        ecall                       # a0 is 7, tagged data
        addi    a0, a0, 1           # allowed, since a0 is data again
        addi    a0, a0, 48          # the digit for 0 to 9
        li      a7, 1               # the service put
        ecall

        li      a0, 0               # the code
        li      a7, 0               # the service exit
        ecall
