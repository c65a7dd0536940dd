# peer_rows::firing: fired timers go by side and id, whatever their deadlines (rule 8.3)
s/([a-z_]*, \([a-z_]*\)\.held, \1\.id) < ([a-z_]*, \([a-z_]*\)\.held, \2\.id)/(\1.held, \1.id) < (\2.held, \2.id)/
