.data
.word 1,
.word 2
