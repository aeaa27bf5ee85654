// Times the readers on frames near 65,535 bytes, made here, and on a record of 13 fields, whose schema and value are the two lines
// of standard input. For each frame: processor time of the whole check, and of the length of its node once it is known to read.
use std::io::Read;

#[repr(C)]
struct Time {
    seconds: i64,
    nanos: i64,
}

extern "C" {
    fn clock_gettime(clock: i32, time: *mut Time) -> i32;
    fn reading_value(s: *const u8, n: usize) -> u8;
    fn reading_schema(s: *const u8, n: usize) -> u8;
    fn reading_value_len(s: *const u8, n: usize) -> usize;
    fn reading_schema_len(s: *const u8, n: usize) -> usize;
}

const PROCESS_TIME: i32 = 2;
const LIMIT: usize = 65535;

fn now() -> f64 {
    let mut t = Time { seconds: 0, nanos: 0 };
    unsafe { clock_gettime(PROCESS_TIME, &mut t) };
    t.seconds as f64 * 1e9 + t.nanos as f64
}

// The median of 15 runs, each of at least 2 milliseconds, in nanoseconds a call.
fn median(f: &dyn Fn() -> usize) -> f64 {
    let mut sum = 0;
    let mut run = |n: u64| {
        let start = now();
        for _ in 0..n {
            sum += f();
        }
        now() - start
    };
    let mut n = 1;
    while run(n) < 2e6 {
        n *= 2;
    }
    let mut all: Vec<f64> = (0..15).map(|_| run(n) / n as f64).collect();
    all.sort_by(|a, b| a.partial_cmp(b).unwrap());
    std::hint::black_box(sum);
    all[7]
}

fn time(name: &str, schema: bool, s: &[u8]) {
    let (p, n) = (s.as_ptr(), s.len());
    let check = || unsafe { (if schema { reading_schema(p, n) } else { reading_value(p, n) }) as usize };
    assert!(check() == 0, "{name} is not sound");
    let length = || unsafe { if schema { reading_schema_len(p, n) } else { reading_value_len(p, n) } };
    assert!(length() == n, "{name} has another length");
    let (a, b) = (median(&check), median(&length));
    println!("{name:32} {n:6} bytes  check {a:9.0} ns {:6.2} ns/byte  length {b:8.0} ns {:5.2} ns/byte", a / n as f64, b / n as f64);
}

fn text(s: &str) -> Vec<u8> {
    [&(s.len() as u16).to_be_bytes(), s.as_bytes()].concat()
}

// A kind, a count and as many parts as fit.
fn many(kind: u8, limit: usize, part: &dyn Fn(usize) -> Vec<u8>) -> Vec<u8> {
    let mut s = vec![kind, 0, 0];
    let mut n = 0;
    while s.len() + part(n).len() <= limit && n < 65535 {
        s.extend(part(n));
        n += 1;
    }
    s[1..3].copy_from_slice(&(n as u16).to_be_bytes());
    s
}

fn field(name: &str, rest: &[u8]) -> Vec<u8> {
    [&text(name), rest].concat()
}

// Six letters that follow no order.
fn by_chance(i: usize) -> String {
    let mut x = (i as u64 + 1).wrapping_mul(0x9e3779b97f4a7c15);
    (0..6).map(|_| { x ^= x >> 29; x = x.wrapping_mul(0xbf58476d1ce4e5b9); (b'a' + (x >> 40) as u8 % 26) as char }).collect()
}

// Records in records, each with 12 fields before the one that holds the next.
fn nested(levels: usize) -> Vec<u8> {
    let mut s = many(0x0b, LIMIT - levels * 200, &|i| field(&format!("field_{i:04}"), &[0, 2]));
    for _ in 0..levels {
        let mut r = vec![0x0b, 0, 13];
        for i in 0..12 {
            r.extend(field(&format!("field_{i:02}"), &[0, 2]));
        }
        r.extend(field("last", &[0]));
        r.extend(s);
        s = r;
    }
    s
}

fn from_hex(s: &str) -> Vec<u8> {
    (0..s.len() / 2).map(|i| u8::from_str_radix(&s[2 * i..2 * i + 2], 16).unwrap()).collect()
}

fn main() {
    let mut input = String::new();
    std::io::stdin().read_to_string(&mut input).unwrap();
    let finish: Vec<Vec<u8>> = input.lines().map(from_hex).collect();
    let long = [&[7, 0xff, 0xfc][..], &vec![b'a'; 65532]].concat();
    let default = [&[1, 7][..], &text("a default text"), &[7]].concat();
    let nullable = from_hex("000a0002000500020000000500010000");
    time("value: finish of 13 fields", false, &finish[1]);
    time("value: array of Int", false, &many(8, LIMIT, &|_| vec![2, 0, 0, 0, 1]));
    time("value: one String", false, &long);
    time("value: array of short Strings", false, &many(8, LIMIT, &|_| [vec![7], text("boat")].concat()));
    time("value: record", false, &many(0x0b, LIMIT, &|i| field(&format!("field_{i:05}"), &[2, 0, 0, 0, 1])));
    time("value: map, long prefix", false, &many(9, LIMIT, &|i| field(&format!("a_long_common_prefix_of_every_key_{i:05}"), &[2, 0, 0, 0, 1])));
    time("schema: finish of 13 fields", true, &finish[0]);
    time("schema: 1,000 fields", true, &many(0x0b, 14003, &|i| field(&format!("field_{i:04}"), &[0, 2])));
    time("schema: names of 3 characters", true, &many(0x0b, LIMIT, &|i| field(std::str::from_utf8(&[97 + (i % 26) as u8, 97 + (i / 26 % 26) as u8, 48 + (i / 676) as u8]).unwrap(), &[0, 2])));
    time("schema: names of a long prefix", true, &many(0x0b, LIMIT, &|i| field(&format!("a_long_common_prefix_of_every_name_{i:05}"), &[0, 2])));
    time("schema: names by chance", true, &many(0x0b, LIMIT, &|i| field(&by_chance(i), &[0, 2])));
    time("schema: defaults", true, &many(0x0b, LIMIT, &|i| field(&format!("field_{i:05}"), &default)));
    time("schema: nullable fields", true, &many(0x0b, LIMIT, &|i| field(&format!("field_{i:05}"), &nullable)));
    time("schema: enum", true, &[many(0x0c, LIMIT - 1, &|i| text(&format!("symbol_{i:05}"))), vec![0]].concat());
    time("schema: records 15 deep", true, &nested(14));
}
