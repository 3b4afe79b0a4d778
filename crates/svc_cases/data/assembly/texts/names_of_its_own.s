.svc_entry
        j store
