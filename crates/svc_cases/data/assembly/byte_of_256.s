.data
.byte 1, 256
