# peer_rows::each_row: a refresh takes every marked peer, whatever the set (rule 8.5)
s/!row\.refresh_mark || !is_named(self\.set, i)/!row.refresh_mark/
