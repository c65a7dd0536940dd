# flat_engine::clearing: a higher number clears the marks (rule 7.2)
s/^    drop_sent(&mut row);/& row.refresh_mark = false;/
