# drift::floats: the rate is at least 2 (rule 3.3)
s/\.max(1)/.max(2)/
