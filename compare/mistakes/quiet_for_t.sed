# flat_engine::clock: quiet time lasts T (rule 8.4)
s/2 \* \(f\.expire_timeout\)/\1/
