# names that are set to what stands further down, one of them by way of others, and to how far two of a section are apart
.svc_entry
begin:
    la a0, alias
    lw a1, 0(a0)
    lw a2, second
    lw a3, end
    li a7, 0
    ecall
.set alias, last
.set last, middle + 4
middle = words
length = end - words
.set text, . - begin - 4
.data
    .zero 4
words:
    .word 1, 2, 3
end:
    .word length, length - 4, back, text, alias, beginning
.set second, words + 8
.set back, words-end
.equ beginning, start
start = begin
