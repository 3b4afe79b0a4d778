.svc_entry
    beqz a0, . + 1048580
    ecall
