//! Clock readings: drawn around the deadlines, then pushed away from those that are nearer than the
//! mode allows.
use super::{Generator, Mode};
use crate::call::{LARGEST_READING, MS};
use crate::state;
use biasflint::raw::ManagerC;

impl Mode {
    // The last reading before a deadline, and the first after it, that the mode allows.
    fn before(self, deadline: u64) -> u64 {
        match self {
            Mode::Wide => deadline - 2 * MS,
            Mode::Near => deadline - 1,
            Mode::Whole => deadline - MS,
        }
    }

    fn after(self, deadline: u64) -> u64 {
        match self {
            Mode::Wide => deadline + 2 * MS,
            Mode::Near => deadline + MS,
            Mode::Whole => deadline,
        }
    }

    fn too_near(self, deadline: u64, reading: u64) -> bool {
        self.before(deadline) < reading && reading < self.after(deadline)
    }
}

impl Generator {
    // In mode whole, a reading down to whole ms after the start.
    fn whole(&self, reading: u64) -> u64 {
        match self.mode {
            Mode::Whole => reading - (reading - self.start) % MS,
            _ => reading,
        }
    }

    // The nearest deadline, or any.
    fn deadline(&mut self, m: &ManagerC) -> Option<u64> {
        if self.random.flag() {
            return state::deadlines(m).min();
        }
        let n = state::deadlines(m).count() as u64;
        if n == 0 {
            return None;
        }
        let i = self.random.below(n) as usize;
        state::deadlines(m).nth(i)
    }

    // As near as may be, or up to some ms farther.
    fn around(&mut self, deadline: u64) -> u64 {
        let farther = self.random.between(1, 6 * MS);
        match self.random.below(8) {
            0..3 => self.mode.before(deadline),
            3..6 => self.mode.after(deadline),
            6 => self.mode.before(deadline).saturating_sub(farther),
            _ => self.mode.after(deadline) + farther,
        }
    }

    fn step(&mut self, m: &ManagerC) -> u64 {
        let t = m.expire_timeout;
        let most = match self.random.below(1000) {
            0..100 => 0,
            100..400 => 5 * MS,
            400..900 => t / self.temper.pace,
            900..970 => 2 * t,
            970..990 => 200 * t,
            990..996 => 3_001_000 * MS,
            996..999 => LARGEST_READING - m.now,
            _ => return LARGEST_READING - m.now,
        };
        self.random.between(0, most)
    }

    // Later, as far as it takes; or else earlier, but not before now.
    fn pushed(&self, m: &ManagerC, reading: u64) -> u64 {
        let near = |r: u64| state::deadlines(m).find(|d| self.mode.too_near(*d, r));
        let mut later = reading;
        while let Some(d) = near(later) {
            later = self.mode.after(d);
        }
        if later <= LARGEST_READING {
            return later;
        }
        let mut earlier = reading;
        while let Some(d) = near(earlier) {
            earlier = self.mode.before(d);
        }
        if earlier >= m.now { earlier } else { m.now }
    }

    /// The next reading, at or past the present one.
    pub(super) fn reading(&mut self, m: &ManagerC) -> u64 {
        let aim = if self.random.chance(self.temper.aimed) { self.deadline(m) } else { None };
        let reading = match aim {
            Some(deadline) => self.around(deadline),
            None => m.now.saturating_add(self.step(m)),
        };
        let reading = self.whole(reading.clamp(m.now, LARGEST_READING));
        self.pushed(m, reading)
    }

    /// A reading that is refused: one before the present one, or past the largest.
    pub(super) fn refused_reading(&mut self, m: &ManagerC) -> u64 {
        if m.now == 0 || self.random.flag() {
            let past = self.random.between(LARGEST_READING + 1, u64::MAX);
            return self.random.pick(&[LARGEST_READING + 1, u64::MAX, past]);
        }
        let before = self.random.below(m.now);
        self.random.pick(&[0, m.now - 1, before])
    }
}
