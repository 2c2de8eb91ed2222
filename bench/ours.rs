//! The proved functions, as the crate `speed` exports them: a slice passes as a pointer and a length.
unsafe extern "C" {
    fn speed_checksum(bytes: *const u8, len: usize) -> u32;
    fn speed_sums_match(sums: *const u8, sums_len: usize, data: *const u8, data_len: usize, chunk_size: u32) -> bool;
    fn speed_write_frame(
        buf: *mut u8,
        buf_len: usize,
        offset: u64,
        seqno: u64,
        last: bool,
        data: *const u8,
        data_len: usize,
        chunk_size: u32,
    ) -> usize;
}

/// The CRC-32C of `bytes`.
pub fn checksum(bytes: &[u8]) -> u32 {
    unsafe { speed_checksum(bytes.as_ptr(), bytes.len()) }
}

/// Whether `sums` are the sums of the chunks of `data`.
pub fn sums_match(sums: &[u8], data: &[u8], chunk_size: u32) -> bool {
    unsafe { speed_sums_match(sums.as_ptr(), sums.len(), data.as_ptr(), data.len(), chunk_size) }
}

/// Writes the frame to the front of `buf` and says how many octets it took, or 0 where it does not fit.
pub fn write_frame(buf: &mut [u8], offset: u64, seqno: u64, last: bool, data: &[u8], chunk_size: u32) -> usize {
    unsafe {
        speed_write_frame(
            buf.as_mut_ptr(),
            buf.len(),
            offset,
            seqno,
            last,
            data.as_ptr(),
            data.len(),
            chunk_size,
        )
    }
}
