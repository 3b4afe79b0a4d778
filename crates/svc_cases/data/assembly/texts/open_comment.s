# A text whose last line has no line feed: another one begins a line of its own.
.svc_limit 100
.svc_entry
store:  lui t0, 0x100           # the data begins at 0x00100000
        addi ra, zero, 5
        sw ra, 0(t0)
.data
.word 0
/* This comment has no end, and the next text begins all the same.