# flat_engine::clearing: a higher number leaves the held promises (rule 7.2)
s/^    drop_held(&mut row);/    row.guard_held = None;/
