.svc_entry /* a comment
of
  three lines */
    frob
