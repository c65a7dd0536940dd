# flat_engine::notices: the pass on a higher number leaves out the last id (rule 7.3)
s/flat_clear_below(&mut f.peers, n)/flat_clear_below(\&mut f.peers, n.saturating_sub(1))/
