# A comma is left out.
.svc_entry
    add x1, x2 x3
