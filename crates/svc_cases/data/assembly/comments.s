/* Comments between a slash and a star and a star and a slash,
   which go over lines: .svc_entry
 */
.svc_entry   /* one */ /* two **/
    add /* rd */ a0, a1 /* over
    lines */, a2 # a comment up to the line's end /* opens none
    addi a0,/**/a0,/***/1
    .globl a /* passed over
    nop */
    .ident "/* no comment" # "/*
/* before */ here: /* a label */ j here /* behind */
    lw a0, /* x */ 4 /* y */ ( /* z */ a1 /* w */ ) /* v */
    ecall
.data
    .string "a/*b*/c" /* a string
*/, "d"
    .byte 1, /* two */ 2
/* the last one, with / and * in it */
