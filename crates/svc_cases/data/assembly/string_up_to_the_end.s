.data
.string "ab