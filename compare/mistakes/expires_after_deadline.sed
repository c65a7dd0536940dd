# peer_rows::each_row: a timer explodes only past its deadline (rule 4.5)
s/if deadline <= to)/if deadline < to)/
