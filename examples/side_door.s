# A call into a compartment's middle. A guest (compartment 0) has a credit at a bank (compartment 1), the digit 5. The
# bank has a door, where it is called: it asks a PIN of one digit, 7, and where it is right makes the credit 9. In the
# end the guest puts the credit.
#
# The first letter of the input says where the guest calls the bank. With `d` it is the door:
#
# run: ./pump run examples/side_door.img
# input: d5
# out: 5
# err: stop 0 exit 0\n
# status: 0
#
# run: ./pump run examples/side_door.img
# input: d7
# out: 9
# err: stop 0 exit 0\n
# status: 0
#
# The attack:
#
# 1. With another letter the guest calls the bank at 00000070. That is its middle, behind the check of the PIN.
# 2. The bank makes the credit 9 and returns as ever. It asked no PIN.
#
# run: ./pump run examples/side_door.img
# input: s
# out: 9
# err: stop 0 exit 0\n
# status: 0
#
# Under the policy of compartments the jump itself is done, and the instruction that it leads to is refused: the pc is
# tagged pc(0,j), and the word at 00000070 lets nobody in. `addimm` is the group of `li t0, 57`, which stands there.
#
# run: ./pump run examples/side_door.img --policy comp
# input: s
# err: stop 0 violation comp rule(addimm) pc 00000070\n
# status: 4
#
# The word at the door lets compartment 0 in:
#
# run: ./pump run examples/side_door.img --policy comp
# input: d5
# out: 5
# err: stop 0 exit 0\n
# status: 0
#
# run: ./pump run examples/side_door.img --policy comp
# input: d7
# out: 9
# err: stop 0 exit 0\n
# status: 0
#
# A guest that goes past the bank and stores the 9 itself, here with the letter w, is refused as well: the word of the
# credit is the bank's, and it lets nobody else write it.
#
# run: ./pump run examples/side_door.img
# input: w
# out: 9
# err: stop 0 exit 0\n
# status: 0
#
# run: ./pump run examples/side_door.img --policy comp
# input: w
# err: stop 0 violation comp rule(storeword) pc 0000003C\n
# status: 4
#
# Control flow refuses the call of the middle, too, for another reason: the guest's call has the label 1, from which an
# edge leads to the label 2 alone, the door. The guest's own store it allows.
#
# run: ./pump run examples/side_door.img --policy flow
# input: s
# err: stop 0 violation flow rule(addimm) pc 00000070\n
# status: 4
#
# run: ./pump run examples/side_door.img --policy flow
# input: w
# out: 9
# err: stop 0 exit 0\n
# status: 0
#
# Where both are chosen, compartments are asked first, and named.
#
# run: ./pump run examples/side_door.img --policy flow,comp
# input: s
# err: stop 0 violation comp rule(addimm) pc 00000070\n
# status: 4

        .ram    256
        .entry  0, guest

# For control flow: the guest's call by register, label 1, may go to the door, label 2, and the bank's return, label 3,
# behind that call, label 4.
        .text
        .edge   1, 2
        .edge   3, 4

# For compartments: what comes before the first .comp is compartment 0's alone. A .comp says who owns the words that
# follow, and the sets of those who may jump to them and write them, too: 0x1 is compartment 0, and 0x2 is 1.

# The guest
guest:
        li      a7, 2               # the service get:
        ecall                       # a0 is the first letter of the input
        la      t0, door
        addi    t1, a0, -100
        beq     t1, zero, call      # the letter d
        addi    t1, a0, -119
        beq     t1, zero, write     # the letter w
        la      t0, raise           # past the check
call:
        .label  1
        jalr    ra, 0(t0)
        .label  4
        .comp   0, 0x2, 0           # 1 may jump to this word, where its bank returns
        j       end
        .comp   0, 0, 0
write:
        la      t0, credit
        li      t1, 57              # the digit 9
        sw      t1, 0(t0)           # 0000003C: compartments refuse it
end:
        la      t0, credit
        lw      a0, 0(t0)           # reading is free
        li      a7, 1               # the service put
        ecall
        li      a0, 0               # the code
        li      a7, 0               # the service exit
        ecall

# The bank, compartment 1
        .comp   1, 0x1, 0           # 0 may jump to this word, the door
        .label  2
door:
        li      a7, 2               # the service get:
        .comp   1, 0, 0             # the rest of the bank and its credit
        ecall                       # a0 is the PIN's digit
        addi    a0, a0, -55         # 0 for the digit 7
        bne     a0, zero, return
raise:
        li      t0, 57              # 00000070: the digit 9, behind the check
        la      t1, credit
        sw      t0, 0(t1)
return:
        .label  3
        ret

        .data
credit:
        .word   53                  # the digit 5
