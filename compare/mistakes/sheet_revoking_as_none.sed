# shift_sheet::rows: a promise that is being revoked is shown as none (rule 15.1)
s/true))) => 3/true))) => 0/
