# peer_rows::sent: the mark goes with the grant (rule 7.10)
s/^            row\.promise_sent = None;/& row.refresh_mark = false;/
