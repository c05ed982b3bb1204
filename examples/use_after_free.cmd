feed 6D41
run 100
why 0
dis 3C 1
blocks
mem E4 1
tags E0 2
quit
