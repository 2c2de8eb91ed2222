//! The speed of sums and frames: the proved code against plain Rust, in one run, on the same input, round by round in turn.
mod ours;
mod plain;

use std::hint::black_box;
use std::time::Instant;

const CHUNK: usize = 512;
const DATA: usize = 64_512;
const FRAME: usize = 65_049;
const ROUNDS: usize = 1001;
const REPEATS: usize = 8;

fn octets(count: usize) -> Vec<u8> {
    let mut x = 0x1234_5678u32;
    let step = |_| {
        x ^= x << 13;
        x ^= x >> 17;
        x ^= x << 5;
        x as u8
    };
    (0..count).map(step).collect()
}

/// All sums are equal at every length to 600 and from odd places, and so are all frames.
fn compare(data: &[u8]) {
    for len in 0..600 {
        for at in [0, 1, 3] {
            let part = &data[at..at + len];
            let sum = plain::bitwise(part);
            assert_eq!(ours::checksum(part), sum);
            assert_eq!(plain::bytes_register_first(part), sum);
            assert_eq!(plain::bytes_register_last(part), sum);
            assert_eq!(plain::words_register_last(part), sum);
            assert_eq!(plain::two_at_once(part, part), (sum, sum));
            for chunk in [0, 1, 7, 512] {
                compare_frames(part, at as u64, chunk);
            }
        }
    }
    compare_frames(data, u64::MAX, CHUNK as u32);
}

/// The frames of one packet are equal, the rest of the buffer stays, and a buffer one octet short is refused and stays.
fn compare_frames(data: &[u8], seqno: u64, chunk: u32) {
    for last in [false, true] {
        let mut theirs = Vec::new();
        plain::frame(&mut theirs, 1 << 40, seqno, last, data, chunk, plain::bitwise);
        let end = theirs.len();
        let mut buf = vec![0xee; end + 3];
        assert_eq!(ours::write_frame(&mut buf, 1 << 40, seqno, last, data, chunk), end);
        assert!(buf[..end] == theirs && buf[end..] == [0xee; 3]);
        let mut short = vec![0xee; end - 1];
        assert_eq!(ours::write_frame(&mut short, 1 << 40, seqno, last, data, chunk), 0);
        assert!(short.iter().all(|&b| b == 0xee));
        let sums = &mut theirs[if last { 33 } else { 31 }..end - data.len()];
        assert!(ours::sums_match(sums, data, chunk));
        if let Some(octet) = sums.last_mut() {
            *octet ^= 1;
            assert!(!ours::sums_match(sums, data, chunk));
        }
    }
}

/// A way to do the work once; it gives a number that depends on the result.
type Way<'a> = (&'static str, Box<dyn FnMut() -> u32 + 'a>);

fn median(mut values: Vec<f64>) -> (f64, f64, f64) {
    values.sort_by(f64::total_cmp);
    let at = |part: usize| values[(values.len() - 1) * part / 4];
    (at(1), at(2), at(3))
}

/// Each round runs every way, beginning with another one each time. The first way is ours.
fn measure(title: &str, mut ways: Vec<Way>) {
    let count = ways.len();
    let mut times = vec![vec![0f64; ROUNDS]; count];
    for round in 0..ROUNDS {
        let mut results = vec![0u32; count];
        for turn in 0..count {
            let which = (round + turn) % count;
            let start = Instant::now();
            for _ in 0..REPEATS {
                results[which] = black_box((ways[which].1)());
            }
            times[which][round] = start.elapsed().as_secs_f64() / REPEATS as f64;
        }
        assert!(results.iter().all(|r| *r == results[0]));
    }
    println!("{title}");
    println!("| | µs | GB/s | its time to ours: median | quartiles |\n|---|---|---|---|---|");
    for (which, (name, _)) in ways.iter().enumerate() {
        let time = median(times[which].clone()).1;
        let (low, mid, high) = median((0..ROUNDS).map(|r| times[which][r] / times[0][r]).collect());
        println!(
            "| {name} | {:.2} | {:.2} | {mid:.3} | {low:.3} to {high:.3} |",
            time * 1e6,
            DATA as f64 / time / 1e9
        );
    }
    println!();
}

fn sum_chunks(data: &[u8], checksum: impl Fn(&[u8]) -> u32) -> u32 {
    data.chunks(CHUNK)
        .fold(0, |all, chunk| all.rotate_left(1) ^ checksum(chunk))
}

fn sum_pairs(data: &[u8]) -> u32 {
    data.chunks(2 * CHUNK).fold(0u32, |all, pair| {
        let (one, two) = plain::two_at_once(&pair[..CHUNK], &pair[CHUNK..]);
        (all.rotate_left(1) ^ one).rotate_left(1) ^ two
    })
}

fn sums(data: &[u8]) {
    measure(
        "Sums of 126 chunks of 512 bytes",
        vec![
            ("ours", Box::new(|| sum_chunks(data, ours::checksum))),
            (
                "Rust by bytes, register first",
                Box::new(|| sum_chunks(data, plain::bytes_register_first)),
            ),
            (
                "Rust by bytes, register last",
                Box::new(|| sum_chunks(data, plain::bytes_register_last)),
            ),
            (
                "Rust by words, register last",
                Box::new(|| sum_chunks(data, plain::words_register_last)),
            ),
            ("Rust by words, two chunks in step", Box::new(|| sum_pairs(data))),
        ],
    );
}

/// A number that depends on the frame's length and a few of its octets: all are compared before.
fn seen(frame: &[u8]) -> u32 {
    let frame = black_box(frame);
    frame.len() as u32 ^ (frame[40] as u32) << 24 ^ (frame[530] as u32) << 8
}

/// Frames into a vector that keeps its room from one to the next.
fn vector_frames(data: &[u8], checksum: fn(&[u8]) -> u32) -> Box<dyn FnMut() -> u32 + '_> {
    let mut out = Vec::with_capacity(FRAME);
    Box::new(move || {
        out.clear();
        plain::frame(&mut out, 1 << 20, 7, false, data, CHUNK as u32, checksum);
        seen(&out)
    })
}

fn frames(data: &[u8]) {
    let mut buf = vec![0; FRAME];
    let ours = move || {
        let end = ours::write_frame(&mut buf, 1 << 20, 7, false, data, CHUNK as u32);
        seen(&buf[..end])
    };
    measure(
        "Frame of a packet with 64,512 bytes",
        vec![
            ("ours", Box::new(ours)),
            (
                "as hdfs-native, by bytes, register first",
                vector_frames(data, plain::bytes_register_first),
            ),
            (
                "as hdfs-native, by bytes, register last",
                vector_frames(data, plain::bytes_register_last),
            ),
            (
                "as hdfs-native, by words, register last",
                vector_frames(data, plain::words_register_last),
            ),
        ],
    );
}

fn main() {
    let data = octets(DATA);
    compare(&data);
    println!("all sums and frames equal\n");
    sums(&data);
    frames(&data);
}
