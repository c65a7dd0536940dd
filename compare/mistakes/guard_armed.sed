# peer_rows::each_row: a sent guard is armed (rule 20.2)
s/Timer::Unarmed/Timer::Armed(lease::Reading(9_223_372_036_854_775_807))/
