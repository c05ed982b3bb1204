step 0 6
regs 0
pc 0
tags 0 2
step 0 1
why 0
