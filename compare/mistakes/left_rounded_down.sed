# timer::read: time left is rounded down (rule 4.6)
s|\.div_ceil(\([A-Z_]*\))| / \1|
