//! Stand-in for wincode: just enough names for bitmap.rs, leaseman.rs, faults.rs
//! and error.rs to compile. Nothing here is ever called.
use std::fmt;
use std::mem::MaybeUninit;

pub use wincode_derive::{SchemaRead, SchemaWrite};

pub mod config {
    pub trait Config {}
}

pub mod io {
    pub trait Writer {
        fn by_ref(&mut self) -> &mut Self
        where
            Self: Sized,
        {
            self
        }
    }

    pub trait Reader<'de> {
        fn by_ref(&mut self) -> &mut Self
        where
            Self: Sized,
        {
            self
        }
    }

    impl<W: Writer> Writer for &mut W {}
    impl<'de, R: Reader<'de>> Reader<'de> for &mut R {}
}

use config::Config;
use io::{Reader, Writer};

#[derive(Debug)]
pub struct ReadError;

#[derive(Debug)]
pub struct WriteError;

impl fmt::Display for ReadError {
    fn fmt(&self, f: &mut fmt::Formatter) -> fmt::Result {
        write!(f, "read")
    }
}

impl fmt::Display for WriteError {
    fn fmt(&self, f: &mut fmt::Formatter) -> fmt::Result {
        write!(f, "write")
    }
}

pub type ReadResult<T> = Result<T, ReadError>;
pub type WriteResult<T> = Result<T, WriteError>;

pub unsafe trait SchemaWrite<C: Config> {
    type Src: ?Sized;
    fn size_of(src: &Self::Src) -> WriteResult<usize>;
    fn write(writer: impl Writer, src: &Self::Src) -> WriteResult<()>;
}

pub unsafe trait SchemaRead<'de, C: Config> {
    type Dst;
    fn read(reader: impl Reader<'de>, dst: &mut MaybeUninit<Self::Dst>) -> ReadResult<()>;
    fn get(_: impl Reader<'de>) -> ReadResult<Self::Dst> {
        Err(ReadError)
    }
}

unsafe impl<C: Config> SchemaWrite<C> for usize {
    type Src = usize;
    fn size_of(_: &usize) -> WriteResult<usize> {
        Err(WriteError)
    }
    fn write(_: impl Writer, _: &usize) -> WriteResult<()> {
        Err(WriteError)
    }
}

// fixedbitset 0.4 (Debian) has u32 blocks where the repository's 0.5 has usize:
// Src and Dst bridge that here, so that bitmap.rs stays as it is.
unsafe impl<C: Config> SchemaWrite<C> for [usize] {
    type Src = [u32];
    fn size_of(_: &[u32]) -> WriteResult<usize> {
        Err(WriteError)
    }
    fn write(_: impl Writer, _: &[u32]) -> WriteResult<()> {
        Err(WriteError)
    }
}

unsafe impl<'de, C: Config> SchemaRead<'de, C> for usize {
    type Dst = usize;
    fn read(_: impl Reader<'de>, _: &mut MaybeUninit<usize>) -> ReadResult<()> {
        Err(ReadError)
    }
}

unsafe impl<'de, C: Config> SchemaRead<'de, C> for Vec<usize> {
    type Dst = Vec<u32>;
    fn read(_: impl Reader<'de>, _: &mut MaybeUninit<Vec<u32>>) -> ReadResult<()> {
        Err(ReadError)
    }
}
