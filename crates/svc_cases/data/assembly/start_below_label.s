.svc_entry
    ecall
here:   .svc_start   here  # 4
