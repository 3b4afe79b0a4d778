.svc_entry
here:
    nop
    lw a0, %pcrel_lo(here)(a1)
