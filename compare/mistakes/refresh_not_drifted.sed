# flat_engine::clock: a refresh extends by T as it is, not as the clock has it (rule 8.5)
s/= [a-z_:]*(clock, \(f\.expire_timeout\))/= \1/
