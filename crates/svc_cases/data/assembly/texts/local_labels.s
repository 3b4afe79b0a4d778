.svc_entry
        j 1f
