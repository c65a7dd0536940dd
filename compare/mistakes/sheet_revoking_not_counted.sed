# shift_sheet::rows: a promise that is being revoked is not counted among the grants (rule 15.2)
s/grant: sets_over(.*Granted)\.count/grant: m.peers[..m.population].iter().filter(|row| matches!(row.promise_sent, Some((_, false)))).count() as u64/
