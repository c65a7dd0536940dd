# flat_engine::notices: a Revoke is broadcast to nobody (rule 7.5)
s/if [a-z_.]*\.bits == 0 {/if false {/
