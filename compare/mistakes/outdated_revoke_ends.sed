# flat_engine::notices: an outdated Revoke, answered held false, ends the promise held (rule 20.2)
s/return number_actions(num, false, /if let LeaseNotice::RecvLeaseMsg(_, LeaseMsg::Revoke) = notice { handle_notice(f, notice); } &/
