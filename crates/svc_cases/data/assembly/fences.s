# FENCE by name.
.svc_entry
    fence
    fence iorw, iorw
    fence rw, w
    fence r,rw
    fence w , r
    fence i, o
    fence o, i
    fence io, orw
    fence iow, ior
    fence ir, iw
    fence irw, or
    fence ow, rw
    fence.tso
    ecall
.data
    .word 0
