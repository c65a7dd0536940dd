# timer: a refresh extends from now, not from the deadline (rule 4.3)
s/[a-z_]*\.max(now)/now/
