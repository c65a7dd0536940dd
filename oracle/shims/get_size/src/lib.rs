//! Stand-in for get_size: the one method that bitmap.rs implements.
pub use get_size_derive::GetSize;

pub trait GetSize {
    fn get_heap_size(&self) -> usize {
        0
    }
}
