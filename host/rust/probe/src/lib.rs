//! Inner calls of the proved library as safe functions, so that a layer can
//! be tested and timed on its own. They are no part of the interface for the
//! job server.

extern "C" {
    fn lagunedo_probe_aes_blocks(
        key: *const u8,
        key_length: usize,
        back: bool,
        buffer: *mut u8,
        buffer_length: usize,
    ) -> u32;
    fn lagunedo_probe_wide(
        key: *const u8,
        key_length: usize,
        back: bool,
        l: *const u8,
        l_length: usize,
        t: *const u8,
        t_length: usize,
        message: *mut u8,
        message_length: usize,
    ) -> u32;
    fn lagunedo_probe_substitute(back: bool, buffer: *mut u8, buffer_length: usize) -> u32;
    fn lagunedo_probe_look_up(back: bool, buffer: *mut u8, buffer_length: usize) -> u32;
}

/// AES over all full blocks of the buffer in place, as the layer above calls
/// it; deciphers where `back` is true. The bytes after the last full block
/// stay.
///
/// # Errors
///
/// 01's number 1 where the key is neither 16 nor 32 bytes; the buffer is then
/// as it was.
pub fn aes_blocks(key: &[u8], back: bool, buffer: &mut [u8]) -> Result<(), u32> {
    // SAFETY: the call takes slices of any length and requires nothing of
    // them but that they are readable (the buffer writable too), not null and
    // do not overlap. Rust's slices are never null, and a shared and a
    // mutable borrow never overlap. Nothing is kept after the return.
    let number = unsafe {
        lagunedo_probe_aes_blocks(
            key.as_ptr(),
            key.len(),
            back,
            buffer.as_mut_ptr(),
            buffer.len(),
        )
    };
    answer(number)
}

/// The wide block in place: lines 12 to 45 of source document 000's Table 1,
/// or of Table 2 where `back` is true, over AES under `key`, with L = `l` in
/// line 12 and T_star = `t`. EME2-AES is this with its key's fields and the
/// block made from the associated data; other values of L and T_star make it
/// EME-32-AES, for which there are published vectors.
///
/// # Errors
///
/// 1 where the key is neither 16 nor 32 bytes, then 2 where `l` or `t` is not
/// 16 bytes or the message is below 16; the message is then as it was. It has
/// no upper limit here.
pub fn wide(key: &[u8], back: bool, l: &[u8], t: &[u8], message: &mut [u8]) -> Result<(), u32> {
    // SAFETY: as for the blocks, with two further slices that are only read.
    // Those that are only read may overlap in Rust; the message, borrowed
    // mutably, overlaps none of them.
    let number = unsafe {
        lagunedo_probe_wide(
            key.as_ptr(),
            key.len(),
            back,
            l.as_ptr(),
            l.len(),
            t.as_ptr(),
            t.len(),
            message.as_mut_ptr(),
            message.len(),
        )
    };
    answer(number)
}

/// The substitution of every byte in place, or its inverse where `back` is
/// true, as the running code works it out.
pub fn substitute(back: bool, buffer: &mut [u8]) {
    // SAFETY: as for the blocks, with one slice, which nothing else borrows.
    let number = unsafe { lagunedo_probe_substitute(back, buffer.as_mut_ptr(), buffer.len()) };
    assert_eq!(number, 0, "it is never refused");
}

/// The same, looked up in the tables that are kept for tests.
pub fn look_up(back: bool, buffer: &mut [u8]) {
    // SAFETY: as for the substitution.
    let number = unsafe { lagunedo_probe_look_up(back, buffer.as_mut_ptr(), buffer.len()) };
    assert_eq!(number, 0, "it is never refused");
}

/// What a number returned by the library means: 0 is the work done.
fn answer(number: u32) -> Result<(), u32> {
    match number {
        0 => Ok(()),
        number => Err(number),
    }
}
