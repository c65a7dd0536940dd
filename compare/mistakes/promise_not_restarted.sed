# peer_rows::held: a Promise does not kick off a promise that is held (rule 7.9)
s/row\.promise_held = \(Some(t)\);/row.promise_held = row.promise_held.or(\1);/
