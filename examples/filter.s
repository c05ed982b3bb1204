# Copies its input to its output, byte by byte, and exits. A byte takes six turns, so that 1,000,000 turns are enough
# for 166,665 bytes.
#
# run: ./pump run examples/filter.img
# input: one\ntwo\n
# out: one\ntwo\n
# err: stop 0 exit 0\n
# status: 0
#
# Any bytes are copied: a byte FF is 000000FF in a0, and not the FFFFFFFF of the end.
#
# run: ./pump run examples/filter.img
# input: \x00\x7F\x80\xFF\x0A
# out: \x00\x7F\x80\xFF\x0A
# err: stop 0 exit 0\n
# status: 0
#
# Of an empty input nothing is copied.
#
# run: ./pump run examples/filter.img
# err: stop 0 exit 0\n
# status: 0

        .ram    64
        .entry  0, next
        .data                       # no word is listed as code: only control flow asks for that

# The loop: once for each byte of the input
next:
        li      a7, 2               # the service get:
        ecall                       # a0 is the next byte, or FFFFFFFF at the end
        blt     a0, zero, end       # only FFFFFFFF is below 0
        li      a7, 1               # the service put
        ecall
        j       next

end:
        li      a0, 0               # the code
        li      a7, 0               # the service exit
        ecall
