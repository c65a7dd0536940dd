# timer::read: time left of whole ms is one more (rule 4.6)
s|\([a-z_.0-9]*([a-z_.0-9]*)\)\.div_ceil(\([A-Z_]*\))|match \1 { 0 => 0, left => left / \2 + 1 }|
