//! What the proved functions are measured against: plain Rust, written for this comparison.

type Table = [[u32; 256]; 16];

/// Row `k` says what a byte adds that `k` zero bytes follow.
static TABLE: Table = table(0x82F6_3B78);

const fn table(poly: u32) -> Table {
    let mut rows = [[0u32; 256]; 16];
    let mut byte = 0;
    while byte < 256 {
        let mut v = byte as u32;
        let mut k = 0;
        while k < 16 {
            let mut bit = 0;
            while bit < 8 {
                v = (v >> 1) ^ (if v & 1 == 1 { poly } else { 0 });
                bit += 1;
            }
            rows[k][byte] = v;
            k += 1;
        }
        byte += 1;
    }
    rows
}

fn tail(mut v: u32, bytes: &[u8]) -> u32 {
    for &b in bytes {
        v = TABLE[0][(v as u8 ^ b) as usize] ^ (v >> 8);
    }
    v
}

/// The definition, bit by bit: what all the others must equal.
pub fn bitwise(bytes: &[u8]) -> u32 {
    let mut v = !0u32;
    for &b in bytes {
        v ^= b as u32;
        for _ in 0..8 {
            v = (v >> 1) ^ (0x82F6_3B78 * (v & 1));
        }
    }
    !v
}

/// The four bytes that the register is xored into.
#[inline(always)]
fn front(v: u32, b: &[u8], i: usize) -> [u8; 4] {
    [
        b[i] ^ v as u8,
        b[i + 1] ^ (v >> 8) as u8,
        b[i + 2] ^ (v >> 16) as u8,
        b[i + 3] ^ (v >> 24) as u8,
    ]
}

/// Sixteen bytes at a time, indexed byte by byte from the last one back, so that the register's four come last.
pub fn bytes_register_last(bytes: &[u8]) -> u32 {
    let t = &TABLE;
    let mut v = !0u32;
    let mut i = 0;
    while i + 16 <= bytes.len() {
        let f = front(v, bytes, i);
        v = t[0][bytes[i + 15] as usize]
            ^ t[1][bytes[i + 14] as usize]
            ^ t[2][bytes[i + 13] as usize]
            ^ t[3][bytes[i + 12] as usize]
            ^ t[4][bytes[i + 11] as usize]
            ^ t[5][bytes[i + 10] as usize]
            ^ t[6][bytes[i + 9] as usize]
            ^ t[7][bytes[i + 8] as usize]
            ^ t[8][bytes[i + 7] as usize]
            ^ t[9][bytes[i + 6] as usize]
            ^ t[10][bytes[i + 5] as usize]
            ^ t[11][bytes[i + 4] as usize]
            ^ t[12][f[3] as usize]
            ^ t[13][f[2] as usize]
            ^ t[14][f[1] as usize]
            ^ t[15][f[0] as usize];
        i += 16;
    }
    !tail(v, &bytes[i..])
}

/// The same from the first byte on: the register's four come first, and the next block waits for all sixteen.
pub fn bytes_register_first(bytes: &[u8]) -> u32 {
    let t = &TABLE;
    let mut v = !0u32;
    let mut i = 0;
    while i + 16 <= bytes.len() {
        let f = front(v, bytes, i);
        v = t[15][f[0] as usize]
            ^ t[14][f[1] as usize]
            ^ t[13][f[2] as usize]
            ^ t[12][f[3] as usize]
            ^ t[11][bytes[i + 4] as usize]
            ^ t[10][bytes[i + 5] as usize]
            ^ t[9][bytes[i + 6] as usize]
            ^ t[8][bytes[i + 7] as usize]
            ^ t[7][bytes[i + 8] as usize]
            ^ t[6][bytes[i + 9] as usize]
            ^ t[5][bytes[i + 10] as usize]
            ^ t[4][bytes[i + 11] as usize]
            ^ t[3][bytes[i + 12] as usize]
            ^ t[2][bytes[i + 13] as usize]
            ^ t[1][bytes[i + 14] as usize]
            ^ t[0][bytes[i + 15] as usize];
        i += 16;
    }
    !tail(v, &bytes[i..])
}

#[inline(always)]
fn four(k: usize, w: u32) -> u32 {
    TABLE[k + 3][(w & 255) as usize]
        ^ TABLE[k + 2][(w >> 8 & 255) as usize]
        ^ TABLE[k + 1][(w >> 16 & 255) as usize]
        ^ TABLE[k][(w >> 24) as usize]
}

#[inline(always)]
fn block(v: u32, b: &[u8]) -> u32 {
    let word = |i: usize| u32::from_le_bytes([b[i], b[i + 1], b[i + 2], b[i + 3]]);
    // what does not wait for the register first
    let rest = four(8, word(4)) ^ four(4, word(8)) ^ four(0, word(12));
    four(12, v ^ word(0)) ^ rest
}

/// Sixteen bytes at a time by words, the register's part xored last: the fastest found that sums one slice with tables.
pub fn words_register_last(bytes: &[u8]) -> u32 {
    let mut v = !0u32;
    let mut blocks = bytes.chunks_exact(16);
    for b in &mut blocks {
        v = block(v, b);
    }
    !tail(v, blocks.remainder())
}

/// Two slices of one length in step, so that neither register is waited for.
pub fn two_at_once(one: &[u8], two: &[u8]) -> (u32, u32) {
    assert_eq!(one.len(), two.len());
    let (mut v, mut w) = (!0u32, !0u32);
    let (mut ones, mut twos) = (one.chunks_exact(16), two.chunks_exact(16));
    for (a, b) in (&mut ones).zip(&mut twos) {
        v = block(v, a);
        w = block(w, b);
    }
    (!tail(v, ones.remainder()), !tail(w, twos.remainder()))
}

/// A header as a protocol buffer library encodes it: into a vector of its own.
fn header(offset: i64, seqno: i64, last: bool, data_len: i32) -> Vec<u8> {
    let mut out = Vec::with_capacity(if last { 27 } else { 25 });
    out.push(0x09);
    out.extend_from_slice(&offset.to_le_bytes());
    out.push(0x11);
    out.extend_from_slice(&seqno.to_le_bytes());
    out.extend_from_slice(&[0x18, last as u8, 0x25]);
    out.extend_from_slice(&data_len.to_le_bytes());
    if last {
        out.extend_from_slice(&[0x28, 1]);
    }
    out
}

/// The sums in a vector of their own, which is begun with one octet for each chunk and grows.
fn sums(data: &[u8], chunk_size: usize, checksum: fn(&[u8]) -> u32) -> Vec<u8> {
    if data.is_empty() || chunk_size == 0 {
        return Vec::new();
    }
    let mut out = Vec::with_capacity(data.len() / chunk_size);
    let mut start = 0;
    while start < data.len() {
        let end = usize::min(start + chunk_size, data.len());
        out.extend_from_slice(&checksum(&data[start..end]).to_be_bytes());
        start += chunk_size;
    }
    out
}

/// A frame as hdfs-native makes it: sums and header in vectors of their own, then all five parts in turn to `out`.
#[inline(always)]
pub fn frame(
    out: &mut Vec<u8>,
    offset: u64,
    seqno: u64,
    last: bool,
    data: &[u8],
    chunk_size: u32,
    checksum: fn(&[u8]) -> u32,
) {
    let sums = sums(data, chunk_size as usize, checksum);
    let payload = (sums.len() + data.len() + 4) as u32;
    let header = header(offset as i64, seqno as i64, last, data.len() as i32);
    out.extend_from_slice(&payload.to_be_bytes());
    out.extend_from_slice(&(header.len() as u16).to_be_bytes());
    out.extend_from_slice(&header);
    out.extend_from_slice(&sums);
    out.extend_from_slice(data);
}
