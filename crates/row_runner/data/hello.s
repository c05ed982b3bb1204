# Puts A and exits with 0.
        .ram 64
        .data
        li a0, 65
        li a7, 1
        ecall
        li a0, 0
        li a7, 0
        ecall
