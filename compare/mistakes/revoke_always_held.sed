# peer_rows::held: RevokeReply says that a promise was held (rule 7.11)
s/RevokeReply([a-z_]*)/RevokeReply(true)/
