//! How fast the proved checks, headers and cables run, beside a plain Rust implementation in the same run. Both get the
//! same input, and their results are compared.
mod cable;

use std::hint::black_box;
use std::time::Instant;

/// The proved library, as `include/frame.h` declares it.
mod proved {
    mod c {
        extern "C" {
            pub fn frame_header_write(frame: u8, c6: u8, data: u8) -> u16;
            pub fn frame_header_read(frame: u8, header: u16) -> u32;
            pub fn frame_crc6(bytes: *const u8, length: usize) -> u8;
        }
    }

    // Any numbers are allowed, and a slice is a pointer that is not null, with its length.
    pub fn crc6(bytes: &[u8]) -> u8 {
        unsafe { c::frame_crc6(bytes.as_ptr(), bytes.len()) }
    }

    pub fn write(frame: u8, c6: u8, data: u8) -> u16 {
        unsafe { c::frame_header_write(frame, c6, data) }
    }

    pub fn read(frame: u8, header: u16) -> u32 {
        unsafe { c::frame_header_read(frame, header) }
    }
}

/// The same in plain Rust, bit by bit.
mod plain {
    fn step(register: u32, bit: u32, degree: u32, lower: u32) -> u32 {
        let next = register << 1 ^ bit << degree;
        if next >> degree == 0 {
            next
        } else {
            next ^ (1 << degree) ^ lower
        }
    }

    #[inline(never)]
    pub fn crc6(bytes: &[u8]) -> u8 {
        let mut register = 63;
        for &byte in bytes {
            for k in (0..8).rev() {
                register = step(register, u32::from(byte) >> k & 1, 6, 3);
            }
        }
        register as u8 ^ 63
    }

    fn crc4(twelve: u16) -> u16 {
        let mut register = 15;
        for k in (0..12).rev() {
            register = step(register, u32::from(twelve) >> k & 1, 4, 3);
        }
        register as u16
    }

    fn frame_of(frame: u8) -> u8 {
        frame.clamp(1, 6)
    }

    #[inline(never)]
    pub fn write(frame: u8, c6: u8, data: u8) -> u16 {
        let sf = u16::from(frame_of(frame) == 1);
        let in6 = u16::from(!matches!(frame_of(frame), 1 | 3));
        let first = sf << 7 | u16::from(c6 != 0) << 6 | in6 << 5 | u16::from(data) >> 3;
        let twelve = first << 4 | u16::from(data) & 7;
        twelve << 4 | crc4(twelve)
    }

    #[inline(never)]
    pub fn read(frame: u8, header: u16) -> u32 {
        if header & 15 != crc4(header >> 4) {
            return 20 << 16;
        }
        if header >> 15 != u16::from(frame_of(frame) == 1) || header >> 7 & 1 != 0 {
            return 21 << 16;
        }
        let header = u32::from(header);
        (header >> 14 & 1) << 9 | (header >> 13 & 1) << 8 | (header >> 8 & 31) << 3 | header >> 4 & 7
    }
}

/// Bytes that look like data, the same in every run.
fn noise(length: usize) -> Vec<u8> {
    let mut state = 1u32;
    (0..length)
        .map(|_| {
            state = state.wrapping_mul(1_664_525).wrapping_add(1_013_904_223);
            (state >> 24) as u8
        })
        .collect()
}

/// The best of five runs of `work`, in seconds, and what it gave.
fn timed<T>(work: impl Fn() -> T) -> (f64, T) {
    let mut best = f64::INFINITY;
    let mut last = None;
    for _ in 0..5 {
        let start = Instant::now();
        let result = black_box(work());
        best = best.min(start.elapsed().as_secs_f64());
        last = Some(result);
    }
    (best, last.expect("it ran"))
}

const HEADERS: u32 = 4_000_000;

/// Writes and reads back many headers, and sums what was read.
fn headers(write: fn(u8, u8, u8) -> u16, read: fn(u8, u16) -> u32) -> u64 {
    let mut sum = 0;
    for n in 0..HEADERS {
        let frame = (n % 6) as u8 + 1;
        let header = write(frame, (n >> 8 & 1) as u8, (n & 0xff) as u8);
        // every eighth header has a bit changed
        let header = if n % 8 == 0 { header ^ 1 << (n / 8 % 16) } else { header };
        sum += u64::from(read(frame, header));
    }
    sum
}

fn compare(what: &str, unit: &str, amount: f64, proved: (f64, u64), plain: (f64, u64)) {
    assert_eq!(proved.1, plain.1, "{what}: the two implementations differ");
    let (fast, slow) = (amount / proved.0, amount / plain.0);
    println!("{what}: proved {fast:.1} {unit}, plain Rust {slow:.1} {unit}, ratio {:.2}", fast / slow);
}

/// Bytes through the proved cables and through plain rings, with the same places and delays.
fn cables(data: &[u8]) {
    let megabytes = data.len() as f64 / 1e6;
    let (places, delay, extra) = (64, 40, 8);
    let reel = timed(|| cable::through_reel(black_box(data), places, delay));
    let plain = timed(|| cable::through_rings(black_box(data), places, delay));
    compare("a reel of eight pairs", "MB/s", megabytes, reel, plain);
    let pile = timed(|| cable::through_pile(black_box(data), places, delay, extra));
    let plain = timed(|| cable::through_rings(black_box(data), places, delay + extra));
    compare("a stretch over a joint over two reels", "MB/s", megabytes, pile, plain);
    for places in 0..70 {
        for delay in 0..70 {
            let part = &data[..2_000];
            let both = cable::through_rings(part, places, delay + 3);
            assert_eq!(cable::through_reel(part, places, delay + 3), both, "a reel, {places} places, delay {delay} + 3");
            assert_eq!(cable::through_pile(part, places, delay, 3), both, "a pile, {places} places, delay {delay} + 3");
        }
    }
    println!("the cables and the rings give the same over 4,900 numbers of places and delays");
}

fn main() {
    let data = noise(64 << 20);
    let megabytes = data.len() as f64 / 1e6;
    let (t, crc) = timed(|| proved::crc6(black_box(&data)));
    let (u, same) = timed(|| plain::crc6(black_box(&data)));
    compare("CRC-6 over 64 MiB", "MB/s", megabytes, (t, u64::from(crc)), (u, u64::from(same)));

    let proved = timed(|| headers(black_box(proved::write), black_box(proved::read)));
    let plain = timed(|| headers(black_box(plain::write), black_box(plain::read)));
    compare("headers written and read", "million/s", f64::from(HEADERS) / 1e6, proved, plain);

    for length in 0..2_000 {
        assert_eq!(proved::crc6(&data[..length]), plain::crc6(&data[..length]), "CRC-6 over {length} bytes");
    }
    for header in 0..=u16::MAX {
        for frame in 0..8 {
            assert_eq!(proved::read(frame, header), plain::read(frame, header), "header {header:04X} of frame {frame}");
        }
    }
    for data in 0..=u8::MAX {
        for frame in 0..8 {
            for c6 in 0..3 {
                assert_eq!(proved::write(frame, c6, data), plain::write(frame, c6, data));
            }
        }
    }
    println!("both give the same over 2,000 lengths, all headers of all frames, and all fields");

    cables(&data);
}
