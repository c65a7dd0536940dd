//! The library's replay: `crates/card_stream_c`.

unsafe extern "C" {
    // Its slices cross as an address and a length. Proved of it: it asks nothing of the bytes.
    fn card_stream_replay(input: *const u8, length: usize, out: *mut u8, room: usize) -> usize;
}

/// Writes what the cards of `input` print at the start of `out`, and answers how many bytes they
/// are.
pub fn replay(input: &[u8], out: &mut [u8]) -> usize {
    // SAFETY: both are lent for the call, and the library keeps no reference to them.
    unsafe { card_stream_replay(input.as_ptr(), input.len(), out.as_mut_ptr(), out.len()) }
}
