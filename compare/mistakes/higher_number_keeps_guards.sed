# flat_engine::clearing: a higher number leaves the sent guards (rule 7.2)
s/^    drop_sent(&mut row);/    row.promise_sent = None;/
