# peer_rows::each_row: DoRevoke leaves the sent guard of a peer (rule 7.5)
s/^        row\.guard_sent = None;//
