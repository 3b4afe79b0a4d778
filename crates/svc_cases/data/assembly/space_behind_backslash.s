.data
.string "\ n"
