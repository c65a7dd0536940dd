# peer_rows::firing: at equal deadlines held timers go before sent ones (rule 8.3)
s/\(([a-z_]*, \)\([a-z_]*\)\.held, \2\.id) < \(([a-z_]*, \)\([a-z_]*\)\.held, \4\.id)/\1\4.held, \2.id) < \3\2.held, \4.id)/
