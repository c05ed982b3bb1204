# Copies its input to its output with A to Z in place of a to z, and exits. A byte takes ten turns, so that 1,000,000
# turns are enough for 99,999 bytes.
#
# run: ./pump run examples/upper.img
# input: Hello, pump!\n
# out: HELLO, PUMP!\n
# err: stop 0 exit 0\n
# status: 0
#
# The bytes next to the letters stay as they are, and so do 00 and 80 to FF.
#
# run: ./pump run examples/upper.img
# input: `az{@AZ[\x00\xE1\xFF
# out: `AZ{@AZ[\x00\xE1\xFF
# err: stop 0 exit 0\n
# status: 0

        .ram    64
        .entry  0, next
        .data                       # no word is listed as code: only control flow asks for that

# The loop: once for each byte of the input
next:
        li      a7, 2               # the service get:
        ecall                       # a0 is the next byte, or FFFFFFFF at the end
        blt     a0, zero, end       # only FFFFFFFF is below 0

# In ASCII a small letter is its capital and 32. The sum makes 0 to 25 of a to z, and what is below a wraps to a great
# number, so that one comparison without sign finds the letters.
        addi    t0, a0, -97
        sltiu   t0, t0, 26          # 1 for a to z, and 0 for all others
        slli    t0, t0, 5           # 32, or 0
        sub     a0, a0, t0

        li      a7, 1               # the service put
        ecall
        j       next

end:
        li      a0, 0               # the code
        li      a7, 0               # the service exit
        ecall
