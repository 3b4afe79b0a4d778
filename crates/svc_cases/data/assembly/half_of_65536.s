.data
.half -32768, 65536
