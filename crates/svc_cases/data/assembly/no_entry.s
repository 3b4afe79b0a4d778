    ecall
