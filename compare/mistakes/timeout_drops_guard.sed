# peer_rows::sent: GrantTimeout drops an unarmed guard (rule 7.13)
s/[a-z_]*(row\.guard_sent) || //
