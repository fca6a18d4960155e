//! Bytes carried through cables: one on each of eight pairs in turn, a tick after the last, and what has arrived taken.
//! What comes out is summed up.
mod c {
    extern "C" {
        pub fn carry_through_reel(bytes: *const u8, length: usize, places: u16, delay: u16) -> u64;
        pub fn carry_through_pile(bytes: *const u8, length: usize, places: u16, delay: u16, extra: u16) -> u64;
    }
}

/// What the library answers where there is no memory.
const NO_MEMORY: u64 = u64::MAX;

// Any numbers are allowed, and a slice is a pointer that is not null, with its length.
pub fn through_reel(bytes: &[u8], places: u16, delay: u16) -> u64 {
    let sum = unsafe { c::carry_through_reel(bytes.as_ptr(), bytes.len(), places, delay) };
    assert_ne!(sum, NO_MEMORY);
    sum
}

pub fn through_pile(bytes: &[u8], places: u16, delay: u16, extra: u16) -> u64 {
    let sum = unsafe { c::carry_through_pile(bytes.as_ptr(), bytes.len(), places, delay, extra) };
    assert_ne!(sum, NO_MEMORY);
    sum
}

const PAIRS: usize = 8;

/// A pair in plain Rust: a ring of bytes with their ticks.
struct Ring {
    places: Vec<(u8, u64)>,
    head: usize,
    count: usize,
}

impl Ring {
    fn new(places: u16) -> Ring {
        Ring { places: vec![(0, 0); usize::from(places)], head: 0, count: 0 }
    }

    fn put(&mut self, byte: u8, tick: u64) -> bool {
        if self.count == self.places.len() {
            return false;
        }
        let at = (self.head + self.count) % self.places.len();
        self.places[at] = (byte, tick);
        self.count += 1;
        true
    }

    fn take(&mut self, tick: u64, delay: u64) -> Option<u8> {
        if self.count == 0 {
            return None;
        }
        let (byte, put) = self.places[self.head];
        if tick - put < delay {
            return None;
        }
        self.head = (self.head + 1) % self.places.len();
        self.count -= 1;
        Some(byte)
    }
}

#[inline(never)]
pub fn through_rings(bytes: &[u8], places: u16, delay: u16) -> u64 {
    let mut rings: [Ring; PAIRS] = std::array::from_fn(|_| Ring::new(places));
    let mut tick = 0u64;
    let mut sum = 0u32;
    for (i, byte) in bytes.iter().enumerate() {
        let pair = i % PAIRS;
        rings[pair].put(*byte, tick);
        if pair == PAIRS - 1 {
            tick += 1;
        }
        if let Some(taken) = rings[pair].take(tick, u64::from(delay)) {
            sum = sum.wrapping_mul(31).wrapping_add(u32::from(taken));
        }
    }
    u64::from(sum)
}
