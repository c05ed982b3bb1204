# A service of one policy, called with a tag of another one. The program makes a key, which is a service of sealing, and
# calls service 34 of compartments, which lets a compartment write words. The first word's address is to be in a0, and
# there still is the key. Its value is 0, which is an address, but its tag says that it is a key.
#
# Where both policies are chosen, sealing is asked to lend a0 to the service, and it lends data alone.
#
# run: ./pump run examples/lent_key.img --policy comp,seal
# err: stop 0 violation seal lend pc 00000028\n
# status: 4
#
# With an input of a byte or more the program puts 0, which is data, in the key's place. Then the call is served.
#
# run: ./pump run examples/lent_key.img --policy comp,seal
# input: x
# err: stop 0 exit 0\n
# status: 0
#
# Under one of the policies alone, nobody offers the service of the other one.
#
# run: ./pump run examples/lent_key.img --policy seal
# err: stop 0 fault noservice 34\n
# status: 5
#
# run: ./pump run examples/lent_key.img --policy comp
# err: stop 0 fault noservice 16\n
# status: 5

        .ram    64
        .entry  0, start
        .data                       # no word is listed as code: only control flow asks for that

start:
        li      a7, 2               # the service get:
        ecall                       # a0 is the first byte of the input, or FFFFFFFF without one
        mv      s0, a0
        li      a7, 16              # the service mkkey of sealing makes a key:
        ecall                       # a0 is 0, tagged key(0)
        blt     s0, zero, call      # without input, the key stays
        li      a0, 0               # the same value, tagged data

# Lets compartment 0 write the one word at a0.
call:
        li      a1, 1               # one word
        li      a2, 0               # compartment 0
        li      a7, 34              # the service let_write of compartments
        ecall                       # 00000028: refused where a0 is a key

        li      a0, 0               # the code
        li      a7, 0               # the service exit
        ecall
