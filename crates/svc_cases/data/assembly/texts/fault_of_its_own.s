.svc_entry
aside:  add x1, x2 x3
