# peer_rows::each_row: NewGrants guards a peer that has a promise (rule 7.4)
s/ && row\.promise_sent\.is_none()//
