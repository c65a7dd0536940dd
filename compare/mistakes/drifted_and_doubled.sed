# peer_rows::handlers: T is drifted and then doubled, where 2T is to be drifted once (rule 20.2)
s/\([a-z_]*\)(2 \* \([a-z_]*\))/match \1(\2) { lease::Timer::Armed(at) => lease::Timer::Armed(lease::Reading(at.0 + (at.0 - term.now.0))), t => t }/
