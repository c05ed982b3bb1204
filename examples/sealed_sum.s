# Seals the value 7 under a key and adds 1 to what was sealed: the sealing policy stops it there.
#
# run: ./pump run examples/sealed_sum.img --policy seal
# err: stop 0 violation seal rule(addimm) pc 00000018\n
# status: 4
#
# Without the policy no one offers service 16.
#
# run: ./pump run examples/sealed_sum.img --policy none
# err: stop 0 fault noservice 16\n
# status: 5

        .ram    64
        .entry  0, start
        .data                       # no word is listed as code: only control flow asks for that

start:
        li      a7, 16              # the service mkkey makes a key:
        ecall                       # a0 is 0, tagged key(0)
        mv      a1, a0              # a move keeps the tag: a1 is the key

        li      a0, 7               # the value
        li      a7, 17              # the service seal takes a0 and the key in a1:
        ecall                       # a0 is 7, tagged sealed(0)

        addi    a0, a0, 1           # 00000018: refused, a sum with a sealed value
