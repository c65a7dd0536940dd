//! Stand-in for rand 0.9: the names that faults.rs and error.rs use. The random
//! faults are never drawn here: every draw panics.

pub mod rngs {
    #[derive(Debug)]
    pub struct StdRng {
        _seed: u64,
    }

    impl super::SeedableRng for StdRng {
        fn seed_from_u64(seed: u64) -> Self {
            StdRng { _seed: seed }
        }
    }

    impl super::Rng for StdRng {}
}

pub trait SeedableRng: Sized {
    fn seed_from_u64(seed: u64) -> Self;
}

pub trait Rng {
    fn random_range<T, R: std::ops::RangeBounds<T>>(&mut self, _range: R) -> T {
        panic!("random faults are never drawn here")
    }

    fn random<T>(&mut self) -> T {
        panic!("random faults are never drawn here")
    }
}

pub mod prelude {
    pub use super::rngs::StdRng;
    pub use super::{Rng, SeedableRng};
}

pub mod distr {
    pub mod uniform {
        use std::fmt;

        #[derive(Debug)]
        pub struct Error;

        impl fmt::Display for Error {
            fn fmt(&self, f: &mut fmt::Formatter) -> fmt::Result {
                write!(f, "uniform")
            }
        }
    }
}
