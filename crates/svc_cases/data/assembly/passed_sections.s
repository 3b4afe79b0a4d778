# What is for other tools is passed over; what is kept stands in four sections.
    .file "passed.c"
    .option nopic
    .attribute unaligned_access, 0
    .text
.Ltext0:
    .cfi_sections .debug_frame
    .section .text.startup,"ax",@progbits
    .align 2
    .globl main; .hidden main; .type main, @function
    .svc_entry
main:
    .loc 1 2 3 view .LVU1
    .cfi_startproc
    lla a0, table
    lw a1, (a0)
    .internal main
    .protected main
    ecall
    .cfi_endproc
    .size main, .-main
    .section .init.text,"ax"
    nop
    .section .data.rel.ro.local,"aw"
    .align 2
table: .word main, hook
    .section .init_array,"aw"
    .align 2
hook: .word main
    .section .init_array.00100,"aw"
    .word main
    .section .gcc_except_table,"a",@progbits
    .align 2
.LLSDA0:
    .byte 0xff
    .uleb128 300
    .section .eh_frame,"a",@progbits
.Lframe1:
    .4byte 0x10
    .section .debug_info,"",@progbits
.Ldebug_info0: .4byte 0x8a ; .2byte 5
1:  .byte 0x1
    .4byte .LASF0 # .text
    .string "int ; .text"
    .quad 0x123456789abcdef0
    .zero 3
    .section .debug_str,"MS",@progbits,1
.LASF0:
    .string "long long int"
    .ident "GCC: (GNU) 12"
    .data
last: .word last
    .section .stabstr, "", @progbits
    .long 1
    .section .comment
    .ascii "x"
    .section ".note.GNU-stack","",@progbits
    .addrsig
    .addrsig_sym main
    .section ".rodata.str1.4","aMS",@progbits,1
    .string "y"
