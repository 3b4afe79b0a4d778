1:      ecall
