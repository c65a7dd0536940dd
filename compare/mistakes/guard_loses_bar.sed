# flat_engine::notices: the Guard broadcast loses its bar (rule 7.4)
s/LeaseMsg::Guard([a-z_]*)/LeaseMsg::Guard(None)/
