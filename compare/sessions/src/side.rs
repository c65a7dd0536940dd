//! The library's side: a record that is lent to every call, and the answers as text.
use crate::answer;
use crate::call::Call;
use crate::fired;
use crate::leaves;
use crate::parse::{self, Line};
use crate::state;
use crate::text;
use biasflint::raw::{self, AnswerC, FiredTimersC, ManagerC};
use std::io::{self, BufRead, BufWriter, Write};

/// Answers lines of the protocol. A set-up ends the session before it, as with the oracle, whatever
/// comes of it.
pub struct Side {
    pub record: ManagerC,
    /// The timers of the last advance.
    fired: FiredTimersC,
    there: bool,
    always: bool,
}

impl Side {
    pub fn new(always: bool) -> Side {
        Side { record: ManagerC::BLANK, fired: FiredTimersC::NONE, there: false, always }
    }

    /// The call, and its answer as text.
    pub fn call(&mut self, call: &Call, out: &mut Vec<u8>) -> AnswerC {
        let near = matches!(call, Call::Advance(to) if state::is_near(&self.record, *to));
        let answer = raw::call(&mut self.record, call.card());
        answer::write(out, call, &answer, self.record.population as u64, near);
        if matches!(call, Call::SetUp(_) | Call::Advance(_)) {
            self.fired = answer.fired;
        }
        answer
    }

    /// ` | ` and the state.
    pub fn state(&self, out: &mut Vec<u8>) {
        text::words(out, " | ");
        state::write(out, &self.record);
    }

    fn in_session(&mut self, line: &Line, out: &mut Vec<u8>) {
        if let Line::Call(call @ Call::SetUp(_)) = line {
            self.there = self.call(call, out).refused == 0;
        } else if !self.there {
            text::words(out, "nosession");
        } else if let Line::Call(call) = line {
            self.call(call, out);
        } else if matches!(line, Line::State) {
            state::write(out, &self.record);
        } else if matches!(line, Line::Order) {
            text::words(out, "order ");
            fired::write(out, &self.fired);
        } else {
            text::words(out, "bad");
        }
        if self.there && self.always {
            self.state(out);
        }
    }

    /// One line of the protocol; the answer has no newline.
    pub fn line(&mut self, line: &str, out: &mut Vec<u8>) {
        match parse::line(line) {
            Line::Blank => {}
            Line::Comment(text) => text::words(out, text),
            Line::Verbose(always) => {
                self.always = always;
                text::words(out, "ok");
            }
            Line::Drifted(ns, d) => leaves::write_drifted(out, &leaves::drifted(ns, d)),
            Line::Sets(call) => leaves::write_set_answer(out, &call.answer()),
            Line::BadLeaf => text::words(out, "bad"),
            Line::BadSetUp => {
                self.there = false;
                text::words(out, "bad");
            }
            line => self.in_session(&line, out),
        }
    }
}

/// Answers standard input line by line.
pub fn answer_all(always: bool) -> io::Result<()> {
    let mut side = Side::new(always);
    let mut out = BufWriter::new(io::stdout().lock());
    let mut answer = Vec::new();
    for line in io::stdin().lock().lines() {
        answer.clear();
        side.line(&line?, &mut answer);
        answer.push(b'\n');
        out.write_all(&answer)?;
    }
    out.flush()
}
