// Times the leaves beside Rust's `as` and its UTF-8 test: for each conversion the time of one call of
// each and their ratio, and for the UTF-8 test the time of a byte or of a short text. Each time is the least of many short runs.
use std::hint::black_box;
use std::time::Instant;

extern "C" {
    fn leaves_int_to_float(b: u32) -> u32;
    fn leaves_int_to_double(b: u32) -> u64;
    fn leaves_long_to_float(b: u64) -> u32;
    fn leaves_long_to_double(b: u64) -> u64;
    fn leaves_float_to_double(b: u32) -> u64;
    fn leaves_double_to_float(b: u64) -> u32;
    fn leaves_is_utf8(s: *const u8, n: usize) -> bool;
}

// Rust's casts behind a call as well, from bits to bits.
#[inline(never)]
extern "C" fn int_to_float(b: u32) -> u32 {
    (b as i32 as f32).to_bits()
}
#[inline(never)]
extern "C" fn int_to_double(b: u32) -> u64 {
    (b as i32 as f64).to_bits()
}
#[inline(never)]
extern "C" fn long_to_float(b: u64) -> u32 {
    (b as i64 as f32).to_bits()
}
#[inline(never)]
extern "C" fn long_to_double(b: u64) -> u64 {
    (b as i64 as f64).to_bits()
}
#[inline(never)]
extern "C" fn float_to_double(b: u32) -> u64 {
    (f32::from_bits(b) as f64).to_bits()
}
#[inline(never)]
extern "C" fn double_to_float(b: u64) -> u32 {
    (f64::from_bits(b) as f32).to_bits()
}

const ROUNDS: usize = 20;
const TRIES: usize = 2000;

fn next(s: &mut u64) -> u64 {
    *s ^= *s << 13;
    *s ^= *s >> 7;
    *s ^= *s << 17;
    *s
}

// The least time of a run, in nanoseconds an input.
fn time(n: usize, mut pass: impl FnMut() -> u64) -> f64 {
    let mut least = f64::MAX;
    for _ in 0..TRIES {
        let start = Instant::now();
        for _ in 0..ROUNDS {
            black_box(pass());
        }
        let t = start.elapsed().as_secs_f64() * 1e9 / (ROUNDS * n) as f64;
        least = least.min(t);
    }
    least
}

macro_rules! beside {
    ($name:expr, $inputs:expr, $ours:ident, $theirs:ident) => {{
        let inputs = $inputs;
        for &b in inputs.iter() {
            assert_eq!(unsafe { $ours(b) } as u64, $theirs(b) as u64, "{} {:x}", $name, b);
        }
        let ours = time(inputs.len(), || {
            let mut sum = 0u64;
            for &b in inputs.iter() {
                sum = sum.wrapping_add(unsafe { $ours(b) } as u64);
            }
            sum
        });
        let theirs = time(inputs.len(), || {
            let mut sum = 0u64;
            for &b in inputs.iter() {
                sum = sum.wrapping_add($theirs(b) as u64);
            }
            sum
        });
        println!("{:18} {:5.2} ns  as {:5.2} ns  ratio {:4.2}", $name, ours, theirs, ours / theirs);
    }};
}

fn main() {
    let mut s = 0x9e37_79b9_7f4a_7c15;
    // integers of every size and sign; floats that are finite and suit either width
    let longs: Vec<u64> = (0..1024).map(|_| ((next(&mut s) as i64) >> (next(&mut s) % 64)) as u64).collect();
    let ints: Vec<u32> = (0..1024).map(|_| ((next(&mut s) as i32) >> (next(&mut s) % 32)) as u32).collect();
    let floats: Vec<u32> = (0..1024).map(|_| (next(&mut s) as i32 as f32 / 1024.0).to_bits()).collect();
    let doubles: Vec<u64> = (0..1024).map(|_| (next(&mut s) as i64 as f64 / 1048576.0).to_bits()).collect();
    beside!("int to float", &ints, leaves_int_to_float, int_to_float);
    beside!("int to double", &ints, leaves_int_to_double, int_to_double);
    beside!("long to float", &longs, leaves_long_to_float, long_to_float);
    beside!("long to double", &longs, leaves_long_to_double, long_to_double);
    beside!("float to double", &floats, leaves_float_to_double, float_to_double);
    beside!("double to float", &doubles, leaves_double_to_float, double_to_float);

    // texts of 60,000 bytes and more, by the nanoseconds for a byte, and short ones, by the nanoseconds for a text
    let long = |part: &str| vec![part.repeat(60_000 / part.len() + 1).into_bytes()];
    let mut word = |extra: &str| {
        let n = 5 + next(&mut s) as usize % 16;
        let mut t: Vec<u8> = (0..n).map(|_| b'a' + (next(&mut s) % 26) as u8).collect();
        let at = next(&mut s) as usize % n;
        t.splice(at..at, extra.bytes());
        t
    };
    texts("UTF-8, ASCII", &long("a"), true);
    texts("UTF-8, 2 and 3", &long("é€"), true);
    texts("UTF-8, é in 11", &long("abcdefghijé"), true);
    texts("UTF-8, 4", &long("𝄞"), true);
    texts("UTF-8, Cyrillic", &long("Широкая электрификация южных губерний "), true);
    texts("UTF-8, names", &(0..1000).map(|_| word("")).collect::<Vec<_>>(), false);
    texts("UTF-8, names with é", &(0..1000).map(|_| word("é")).collect::<Vec<_>>(), false);
}

// The UTF-8 test beside Rust's own.
fn texts(name: &str, texts: &[Vec<u8>], by_byte: bool) {
    let n = if by_byte { texts.iter().map(|t| t.len()).sum() } else { texts.len() };
    let ours = time(n, || texts.iter().map(|t| unsafe { leaves_is_utf8(black_box(t.as_ptr()), t.len()) } as u64).sum());
    let theirs = time(n, || texts.iter().map(|t| std::str::from_utf8(black_box(t)).is_ok() as u64).sum());
    println!("{:19} {:6.3} ns  Rust {:6.3} ns  ratio {:4.2}", name, ours, theirs, ours / theirs);
}
