# shift_sheet::rows: an exploded promise that is held is counted as active (rule 15.2)
s/held: sets_over(.*Leased.*)\.count/held: m.peers[..m.population].iter().filter(|row| row.promise_held.is_some()).count() as u64/
