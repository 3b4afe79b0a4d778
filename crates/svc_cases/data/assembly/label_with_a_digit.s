.svc_entry
1x: nop
