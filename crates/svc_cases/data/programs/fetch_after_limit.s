# A jump past the text, whose fetch would be in the turn after the last that the task may take.
.svc_limit 1
.svc_entry
    j . + 0x400
.data
    .word 0, 0
