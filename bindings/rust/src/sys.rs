//! The C interface as it is. `bindings/c/tetra_mac.h` says what every function and every word of a record is.

/// Words for any answer but a block's step: the cursor and the longest record.
pub type Out = [u64; 26];

/// Words for the answer of a block's step: what stands there, and its header's record.
pub type StepOut = [u64; 33];

/// A call that reads a header or element: bytes and their count, the window's start, cursor and end, the answer's words and their count.
pub type Read = unsafe extern "C" fn(*const u8, usize, usize, usize, usize, *mut u64, usize) -> u64;

/// A call that writes one: the same with the record's words and their count before the answer's.
pub type Write = unsafe extern "C" fn(*mut u8, usize, usize, usize, usize, *const u64, usize, *mut u64, usize) -> u64;

/// A call that counts bits of a record: its words and their count, the answer's words and their count.
pub type Length = unsafe extern "C" fn(*const u64, usize, *mut u64, usize) -> u64;

#[rustfmt::skip]
unsafe extern "C" {
    pub fn tetra_read_bits(s: *const u8, len: usize, start: usize, pos: usize, end: usize, num_bits: usize, out: *mut u64, words: usize) -> u64;
    pub fn tetra_peek_bits_posoffset(s: *const u8, len: usize, start: usize, pos: usize, end: usize, offset: isize, num_bits: usize, out: *mut u64, words: usize) -> u64;
    pub fn tetra_write_bits(s: *mut u8, len: usize, start: usize, pos: usize, end: usize, value: u64, num_bits: usize, out: *mut u64, words: usize) -> u64;

    pub fn tetra_slotgrant_read(s: *const u8, len: usize, start: usize, pos: usize, end: usize, out: *mut u64, words: usize) -> u64;
    pub fn tetra_slotgrant_write(s: *mut u8, len: usize, start: usize, pos: usize, end: usize, record: *const u64, count: usize, out: *mut u64, words: usize) -> u64;

    pub fn tetra_channel_allocation_read(s: *const u8, len: usize, start: usize, pos: usize, end: usize, out: *mut u64, words: usize) -> u64;
    pub fn tetra_channel_allocation_write(s: *mut u8, len: usize, start: usize, pos: usize, end: usize, record: *const u64, count: usize, out: *mut u64, words: usize) -> u64;
    pub fn tetra_channel_allocation_len(record: *const u64, count: usize, out: *mut u64, words: usize) -> u64;

    pub fn tetra_mac_resource_read(s: *const u8, len: usize, start: usize, pos: usize, end: usize, out: *mut u64, words: usize) -> u64;
    pub fn tetra_mac_resource_write(s: *mut u8, len: usize, start: usize, pos: usize, end: usize, record: *const u64, count: usize, out: *mut u64, words: usize) -> u64;
    pub fn tetra_mac_resource_compute_header_len(record: *const u64, count: usize, out: *mut u64, words: usize) -> u64;
    pub fn tetra_mac_resource_len_and_fill(record: *const u64, count: usize, sdu_len: usize, out: *mut u64, words: usize) -> u64;

    pub fn tetra_access_assign_read(s: *const u8, len: usize, start: usize, pos: usize, end: usize, out: *mut u64, words: usize) -> u64;
    pub fn tetra_access_assign_write(s: *mut u8, len: usize, start: usize, pos: usize, end: usize, record: *const u64, count: usize, out: *mut u64, words: usize) -> u64;

    pub fn tetra_mac_access_read(s: *const u8, len: usize, start: usize, pos: usize, end: usize, out: *mut u64, words: usize) -> u64;
    pub fn tetra_mac_access_write(s: *mut u8, len: usize, start: usize, pos: usize, end: usize, record: *const u64, count: usize, out: *mut u64, words: usize) -> u64;

    pub fn tetra_mac_data_read(s: *const u8, len: usize, start: usize, pos: usize, end: usize, out: *mut u64, words: usize) -> u64;
    pub fn tetra_mac_data_write(s: *mut u8, len: usize, start: usize, pos: usize, end: usize, record: *const u64, count: usize, out: *mut u64, words: usize) -> u64;

    pub fn tetra_block_step(block: *const u8, len: usize, bits: usize, bit: usize, out: *mut u64, words: usize) -> u64;
    pub fn tetra_block_add(block: *mut u8, len: usize, bits: usize, bit: usize, record: *const u64, count: usize, length: u64, content: *const u8, content_len: usize, content_bits: usize, out: *mut u64, words: usize) -> u64;
    pub fn tetra_block_finish(block: *mut u8, len: usize, bits: usize, bit: usize, out: *mut u64, words: usize) -> u64;
}
