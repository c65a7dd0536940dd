//! The calls that need no session: drift and sets of ids.

use std::fmt::Write as _;
use std::panic;
use std::process;
use std::time::Duration;

use crate::utils::Bitmap;
use crate::utils::faults::{self, Faults};
use crate::words::{Words, show_ids, show_set};

/// Sets the process-wide drift. With `beside` another fault is set too, so that the
/// faults are active and a drift of 0 goes through `mul_f64` as well.
pub fn set_drift(drift: Option<i8>, beside: bool) {
    faults::inject_faults(Faults {
        clock_drift_pct: drift.unwrap_or(0),
        msg_delay_ms: beside.into(),
        ..Faults::default()
    });
}

/// `W dur drift`: the answer in ns, and seconds, quotient and product as f64 bits.
pub fn drift_call(words: Words, out: &mut String) -> Option<()> {
    let (dur, drift) = (words.number(1)?, words.drift(2)?);
    set_drift(drift, words.at(0) == Some("w"));
    let dur = Duration::from_nanos(dur);
    let answer = faults::clock_drifted(dur);
    let rate = drift.map_or(100, |d| (100 + i16::from(d)).max(1));
    let quotient = 100.0 / f64::from(rate);
    let seconds = dur.as_secs_f64();
    let product = quotient * seconds;
    // the working values are the driver's: they must lead to the repository's answer
    if drift.is_some() && Duration::from_secs_f64(product) != answer {
        broken(&format!("drift of {dur:?} by {drift:?}"));
    }
    let _ = write!(
        out,
        "{} {:016x} {:016x} {:016x}",
        answer.as_nanos(),
        seconds.to_bits(),
        quotient.to_bits(),
        product.to_bits()
    );
    Some(())
}

/// `b NAME ..`: a call on sets. A panic of the Rust is printed as `panic`.
pub fn bitmap_call(words: Words, out: &mut String) -> Option<()> {
    let answer = match words.at(1)? {
        "new" | "range" | "list" => build(words)?,
        _ => use_set(words)?,
    };
    out.push_str(&answer);
    Some(())
}

fn build(words: Words) -> Option<String> {
    let size = words.byte(2)?;
    let built = match words.at(1)? {
        "new" => {
            let ones = words.byte(3)? != 0;
            panic::catch_unwind(|| Bitmap::new(size, ones))
        }
        "range" => {
            let (lo, hi) = (words.byte(3)?, words.byte(4)?);
            panic::catch_unwind(|| Bitmap::from((size, lo..hi)))
        }
        _ => {
            let ids = words.list(3)?;
            panic::catch_unwind(|| Bitmap::from((size, ids)))
        }
    };
    Some(built.map_or_else(|_| "panic".into(), |set| show_set(&set)))
}

fn use_set(words: Words) -> Option<String> {
    let mut set = words.set(2)?;
    let answer = match words.at(1)? {
        "set" => {
            let done = set.set(words.byte(3)?, words.byte(4)? != 0);
            done.map_or_else(|_| "err".into(), |()| show_set(&set))
        }
        "get" => set.get(words.byte(3)?).map_or_else(|_| "err".into(), |b| u8::from(b).to_string()),
        "size" => set.size().to_string(),
        "count" => set.count().to_string(),
        "flip" => {
            set.flip();
            show_set(&set)
        }
        "clear" => {
            set.clear();
            show_set(&set)
        }
        "union" => {
            let done = set.union(&words.set(3)?);
            done.map_or_else(|_| "err".into(), |()| show_set(&set))
        }
        "super" => u8::from(set.is_superset(&words.set(3)?)).to_string(),
        "ones" => show_ids(&Vec::<u8>::from(&set)),
        _ => return None,
    };
    Some(answer)
}

/// A check of the driver's own has failed: its answers would be worth nothing.
pub fn broken(what: &str) -> ! {
    eprintln!("oracle: the driver's own check failed: {what}");
    process::exit(2)
}
