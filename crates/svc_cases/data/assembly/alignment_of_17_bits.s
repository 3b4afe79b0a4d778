.data
.align 17
