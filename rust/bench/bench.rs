//! What the Rust programs share, as least.c has it: their arguments, the answers, the clock and the printed line.
use std::process::exit;

/// Sums over the items of a call. Each run makes `light`, the sum of addresses and lengths of names, or of both words of relocations. The
/// first run also makes `sum`, the sum of a hash of each item.
#[derive(Default)]
pub struct Answer {
    pub items: u64,
    pub light: u64,
    pub sum: u64,
    pub fold: bool,
}

fn fnv(hash: u64, bytes: &[u8]) -> u64 {
    bytes.iter().fold(hash, |hash, byte| (hash ^ u64::from(*byte)).wrapping_mul(0x100000001b3))
}

fn fnv_number(number: u64) -> u64 {
    fnv(0xcbf29ce484222325, &number.to_le_bytes())
}

impl Answer {
    #[inline]
    fn add(&mut self, address: u64, length: usize) {
        self.items += 1;
        self.light = self.light.wrapping_add(address).wrapping_add(length as u64);
    }

    #[inline]
    fn fold(&mut self, hash: impl FnOnce() -> u64) {
        if self.fold {
            self.sum = self.sum.wrapping_add(hash());
        }
    }

    /// Adds an export or a symbol.
    #[inline]
    pub fn named(&mut self, address: u64, name: &[u8]) {
        self.add(address, name.len());
        self.fold(|| fnv(fnv_number(address), name));
    }

    /// Adds an import.
    #[allow(dead_code)]
    #[inline]
    pub fn imported(&mut self, address: u64, library: &[u8], name: &[u8]) {
        self.add(address, name.len());
        self.fold(|| fnv(fnv(fnv(fnv_number(address), library), b" "), name));
    }

    /// Adds a relocation of the section of this number in its segment.
    #[inline]
    pub fn relocated(&mut self, section: u64, address: u32, info: u32) {
        self.add(u64::from(address), info as usize);
        self.fold(|| fnv(fnv(fnv_number(section), &u64::from(address).to_le_bytes()), &u64::from(info).to_le_bytes()));
    }

    /// Sets the answer of a call that only counts.
    pub fn count(&mut self, items: usize) {
        self.items = items as u64;
        self.light = self.items;
    }
}

#[cfg(target_os = "linux")]
fn now() -> f64 {
    #[repr(C)]
    struct Time {
        seconds: i64,
        nanoseconds: i64,
    }
    unsafe extern "C" {
        safe fn clock_gettime(clock: i32, time: &mut Time) -> i32;
    }
    // Uses processor time, which other processes change least.
    let mut time = Time { seconds: 0, nanoseconds: 0 };
    assert_eq!(clock_gettime(2, &mut time), 0);
    time.seconds as f64 * 1e9 + time.nanoseconds as f64
}

#[cfg(not(target_os = "linux"))]
fn now() -> f64 {
    static BEGUN: std::sync::LazyLock<std::time::Instant> = std::sync::LazyLock::new(std::time::Instant::now);
    BEGUN.elapsed().as_secs_f64() * 1e9
}

/// Runs a call once with the hash, then without it for some seconds. Prints the least nanoseconds of a run, and the answer.
pub fn bench(seconds: f64, mut run: impl FnMut(&mut Answer)) {
    let mut answer = |fold| {
        let mut answer = Answer { fold, ..Answer::default() };
        run(&mut answer);
        answer
    };
    let full = answer(true);
    let begun = now();
    answer(false);
    let batch = 1 + (1e6 / (now() - begun + 1.0)) as u64;
    let mut least = f64::MAX;
    while now() - begun < seconds * 1e9 {
        let from = now();
        for _ in 0..batch {
            assert_eq!(answer(false).light, full.light, "two runs differ");
        }
        least = least.min((now() - from) / batch as f64);
    }
    println!("{least:.1} {} {} {:016x}", full.items, full.light, full.sum);
}

/// Returns the arguments WORD, FILE and SECONDS. Of the file it returns the bytes.
pub fn arguments() -> (String, Vec<u8>, f64) {
    let words: Vec<String> = std::env::args().collect();
    let [_, word, file, seconds] = &words[..] else { usage("usage: bench WORD FILE SECONDS") };
    let Ok(bytes) = std::fs::read(file) else { usage("the file can't be read") };
    let Ok(seconds) = seconds.parse() else { usage("the seconds are no number") };
    (word.clone(), bytes, seconds)
}

/// Ends the program with a line.
pub fn usage(line: &str) -> ! {
    eprintln!("{line}");
    exit(2)
}
