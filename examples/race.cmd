feed 6D41
step 0 13
step 1 100
run 100
reset
feed 6D41
run 74
blocks
dis 64 1
tags E0 2
quit
