# What compilers write where nothing may be run: no instruction of RV32I, so it traps.
.svc_entry
        unimp
.data
        .word 0
