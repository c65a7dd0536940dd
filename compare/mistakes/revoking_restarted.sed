# peer_rows::sent: PromiseReply kicks off a promise that is being revoked (rule 7.10)
s/if revoking || /if /
