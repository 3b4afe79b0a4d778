.data
.string "abc
