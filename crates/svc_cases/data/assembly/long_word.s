# A word of 26 letters.
.svc_entry
    abcdefghijklmnopqrstuvwxyz x1
