.svc_version 3
