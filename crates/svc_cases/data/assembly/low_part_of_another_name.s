.svc_entry
    lw a0, %hi(8)(a1)
