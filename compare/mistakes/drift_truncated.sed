# drift::floats: the product in ns is cut off, not rounded to the nearest (rule 3.5)
s/(high + (half - 1) + carry(low, whole)) >>/high >>/
