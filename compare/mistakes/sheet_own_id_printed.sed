# shift_sheet::rows: the own id has a row too (rule 15.1)
s/!= m\.me/!= m.population/
