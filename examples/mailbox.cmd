break 24
run 100
mem 3C 2
why 1
clear 24
run 100
