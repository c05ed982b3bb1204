# A jump past a check. A guest tells its name, four letters, and then a digit: 0 to be greeted, which puts H, or 1 to be
# told the secret, the letter S. That asks a PIN of one digit, 7, and puts N where it is another one. Where the routine
# for a digit begins, a table of two words says.
#
# run: ./pump run examples/detour.img
# input: anna0
# out: H
# err: stop 0 exit 0\n
# status: 0
#
# run: ./pump run examples/detour.img
# input: anna17
# out: S
# err: stop 0 exit 0\n
# status: 0
#
# run: ./pump run examples/detour.img
# input: anna15
# out: N
# err: stop 0 exit 0\n
# status: 0
#
# The attack:
#
# 1. The program takes the digit as a place in the table, and never looks whether the table has so many.
# 2. Behind the table stands the name. So the digit 2 takes the name for the address of a routine.
# 3. The name of the guest is the four bytes of the address 00000058: there, behind the check, the secret is loaded.
# 4. The program jumps there, and puts the secret. It asked no PIN.
#
# run: ./pump run examples/detour.img
# input: \x58\x00\x00\x002
# out: S
# err: stop 0 exit 0\n
# status: 0
#
# Under the policy of control flow the jump itself is done, and the instruction that it leads to is refused: the jump
# has the label 1, from which an edge leads to the label 2 alone. The routines begin with this label, and the word at
# 00000058 has none. `const` is the group of LUI, the first of the two words of `la` that stand there.
#
# run: ./pump run examples/detour.img --policy flow
# input: \x58\x00\x00\x002
# err: stop 0 violation flow rule(const) pc 00000058\n
# status: 4
#
# A name that is the address of a routine's beginning is no attack: the edge leads there, and the PIN is asked.
#
# run: ./pump run examples/detour.img --policy flow
# input: \x48\x00\x00\x0025
# out: N
# err: stop 0 exit 0\n
# status: 0
#
# Who does what was meant sees no difference.
#
# run: ./pump run examples/detour.img --policy flow
# input: anna0
# out: H
# err: stop 0 exit 0\n
# status: 0
#
# run: ./pump run examples/detour.img --policy flow
# input: anna17
# out: S
# err: stop 0 exit 0\n
# status: 0
#
# The other policies allow the attack: nothing is sealed, all words are compartment 0's, and there is no heap.
#
# run: ./pump run examples/detour.img --policy seal,comp,heap
# input: \x58\x00\x00\x002
# out: S
# err: stop 0 exit 0\n
# status: 0

        .ram    256
        .entry  0, start

# For control flow: the program is code, and its data is not. The one jump by register is the one to a routine, label 1,
# and it may go where a routine begins, label 2.
        .text
        .edge   1, 2

start:
        la      t1, name
        addi    t2, t1, 4           # behind its last letter
        li      a7, 2               # the service get
next_letter:
        ecall                       # a0 is the next letter
        sb      a0, 0(t1)
        addi    t1, t1, 1
        bne     t1, t2, next_letter

        ecall                       # a0 is the digit
        addi    a0, a0, -48         # as a number
        slli    a0, a0, 2           # the table has four bytes for each
        la      t0, routines
        add     t0, t0, a0          # nobody asks whether this is still the table
        lw      t0, 0(t0)
        .label  1
        jalr    zero, 0(t0)         # 0000003C: to the routine

# The routines
        .label  2
greet:
        li      a0, 72              # the letter H
        j       answer

        .label  2
tell:
        li      a7, 2               # 00000048: the service get:
        ecall                       # a0 is the PIN's digit
        addi    a0, a0, -55         # 0 for the digit 7
        bne     a0, zero, refuse
        la      t0, secret          # 00000058: behind the check
        lw      a0, 0(t0)
        j       answer
refuse:
        li      a0, 78              # the letter N

answer:
        li      a7, 1               # the service put
        ecall
        li      a0, 0               # the code
        li      a7, 0               # the service exit
        ecall

        .data
secret:
        .word   83                  # the letter S
routines:
        .word   greet
        .word   tell
name:
        .word   0
