# flat_engine::clearing: a higher number leaves the sent promises (rule 7.2)
s/^    drop_sent(&mut row);/    row.guard_sent = None;/
