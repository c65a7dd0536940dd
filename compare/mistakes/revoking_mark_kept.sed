# peer_rows::each_row: a peer that is being revoked keeps its mark (rule 20.2)
s/row\.refresh_mark = false;/row.refresh_mark = revoking;/
