# A thousand blocks, one after another: each is taken, written, read and given back. The number of a block is never given
# again, so each comes with two tags of its own, ptr(N) for what points to it and cell(N,val) for its words: 2,000 tags in
# all. But soon behind its end they stand nowhere any more, in no register and no word of memory.
#
# run: ./pump run examples/thousand_blocks.img --policy heap
# err: stop 0 exit 0\n
# status: 0
#
# A machine that keeps rules names tags by numbers, and there are as many of these as `--tags` says. Five are enough here:
# whenever a turn needs a number and none is left, a sweep takes back those of tags that stand nowhere any more.
#
# run: ./pump run examples/thousand_blocks.img --policy heap --tags 5
# err: stop 0 exit 0\n
# status: 0
#
# docs/hits.md tells how often that happens, by how many numbers there are. A sweep drops the kept rules, so that fewer
# turns find theirs.

        .ram    256
        .heap   0xE0, 32            # for heap safety: the region of the machine's heap
        .text
        li      s0, 1000            # how many blocks are left
next:
        li      a0, 16              # so many bytes
        li      a7, 48              # the service malloc
        ecall                       # a0 points to the block
        sw      s0, 0(a0)
        lw      t0, 0(a0)
        bne     t0, s0, lost
        li      a7, 49              # the service free
        ecall                       # takes the block that a0 points to
        addi    s0, s0, -1
        bne     s0, zero, next
lost:
        mv      a0, s0              # the code: 0, or how many blocks are left where a word was lost
        li      a7, 0               # the service exit
        ecall
