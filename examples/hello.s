# Puts the letter A and exits.
#
# run: ./pump run examples/hello.img
# out: A
# err: stop 0 exit 0\n
# status: 0

        .ram    64
        .entry  0, start            # hart 0 starts at the word with this name
        .data                       # no word is listed as code: only control flow asks for that

start:
        li      a0, 65              # the letter A
        li      a7, 1               # the service put,
        ecall                       # which puts out the low byte of a0

        li      a0, 0               # the code: all went well
        li      a7, 0               # the service exit,
        ecall                       # which stops the hart
