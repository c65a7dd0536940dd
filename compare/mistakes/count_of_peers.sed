# flat_engine::questions: lease_cnt leaves out this controller (rule 9.3)
s/^    1 + /    0 + /
