turns 000111
mem 40 1
reset
turns 010101
mem 40 1
run 10
