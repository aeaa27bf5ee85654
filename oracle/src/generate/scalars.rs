//! Numbers and texts that a port is likely to get wrong.
use super::random::Rng;
use crate::frame::hex;

/// Ints at the edges of a byte, of Int and of what Float holds.
pub fn int(r: &mut Rng) -> i32 {
    match r.below(6) {
        0 => r.pick(&[0, 1, -1, 127, 128, 255, 256, -128, -129]),
        1 => r.pick(&[i32::MIN, i32::MAX, i32::MIN + 1, i32::MAX - 1]),
        2 => r.pick(&[
            1 << 24,
            (1 << 24) + 1,
            (1 << 24) + 2,
            (1 << 24) + 3,
            (1 << 25) + 2,
            (1 << 25) + 6,
            -(1 << 24) - 1,
            -(1 << 24) - 3,
        ]),
        3 => float_trap(r, 31) as i32,
        4 => r.below(300) as i32,
        _ => r.u64() as i32,
    }
}

/// A whole number at, just under or just over the middle between two neighbouring floats.
pub fn float_trap(r: &mut Rng, bits: u32) -> i64 {
    let p = r.pick(&[24u32, 53]).min(bits - 2);
    let k = 1 + r.below((bits - p).max(1) as usize) as u32;
    let k = k.min(bits - p).max(1);
    let m = (1u64 << (p - 1)) | (r.u64() & ((1u64 << (p - 1)) - 1));
    let m = if r.percent(20) { (1u64 << p) - 1 } else { m };
    let x = (m << k) | (1u64 << (k - 1));
    let x = match r.below(5) {
        0 => x - 1,
        1 => x + 1,
        2 if k > 30 => x + (1 << r.below(k as usize - 2)),
        _ => x,
    };
    let x = (x & ((1u64 << bits) - 1)) as i64;
    if r.percent(40) { -x } else { x }
}

/// Longs at the edges of Int, of Long and of what Float and Double hold.
pub fn long(r: &mut Rng) -> i64 {
    match r.below(8) {
        0 => int(r) as i64,
        1 => r.pick(&[
            i64::MIN,
            i64::MAX,
            i64::MIN + 1,
            i64::MAX - 1,
            i64::MAX - 511,
            i64::MAX - 512,
            i64::MAX - 1023,
            i64::MAX - 1024,
        ]),
        2 => r.pick(&[i32::MAX as i64, i32::MAX as i64 + 1, i32::MIN as i64, i32::MIN as i64 - 1]),
        3 => r.pick(&[
            1i64 << 53,
            (1 << 53) + 1,
            (1 << 53) + 2,
            (1 << 53) + 3,
            -(1 << 53) - 1,
            1 << 62,
            (1 << 62) + 1,
        ]),
        // rounding to Double and then to Float goes wrong here
        4 => {
            let k = 38 + r.below(3) as u32;
            let m = (1i64 << 23) | (r.u64() as i64 & ((1 << 23) - 1));
            let x =
                (m << (k - 1)).wrapping_add(1i64 << (k - 2)).wrapping_add(r.pick(&[-1i64, 0, 1, 2, -2, 3]));
            let x = x & i64::MAX;
            if r.percent(40) { -x } else { x }
        }
        5 | 6 => float_trap(r, 63),
        _ => r.u64() as i64 >> r.below(63),
    }
}

/// The bits of a Float.
pub fn float(r: &mut Rng) -> u32 {
    match r.below(7) {
        0 => r.pick(&[
            0,
            0x8000_0000,
            0x8000_0000,
            0x7f80_0000,
            0xff80_0000,
            0x3f80_0000,
            1,
            0x807f_ffff,
            0x0080_0000,
            0x7f7f_ffff,
        ]),
        1 => float_nan(r),
        2 => (r.below(1000) as f32 / 8.0).to_bits(),
        _ => r.u64() as u32,
    }
}

pub fn float_nan(r: &mut Rng) -> u32 {
    r.pick(&[
        0x7fc0_0000,
        0xffc0_0000,
        0x7f80_0001,
        0xff80_0001,
        0x7fff_ffff,
        0xffff_ffff,
        0x7fa0_0000,
        0x7fc0_0001,
        0x7fd5_5555,
    ])
}

pub fn double_nan(r: &mut Rng) -> u64 {
    r.pick(&[
        0x7ff8_0000_0000_0000,
        0xfff8_0000_0000_0000,
        0x7ff0_0000_0000_0001,
        0xfff0_0000_0000_0001,
        0x7fff_ffff_ffff_ffff,
        0xffff_ffff_ffff_ffff,
        0x7ff0_0000_2000_0000,
        0x7ff4_0000_0000_0000,
        0x7ff8_0000_0000_0001,
        0x7ffa_aaaa_aaaa_aaaa,
    ])
}

pub fn finite_double(r: &mut Rng) -> u64 {
    let x = match r.below(8) {
        0 => r.pick(&[0.0, -0.0, -0.0, 1.0, -1.0, 0.5, 1e300, -1e300, f64::MIN_POSITIVE, f64::MAX, f64::MIN]),
        1 => f64::from_bits(r.pick(&[
            1,
            0x8000_0000_0000_0001,
            0x000f_ffff_ffff_ffff,
            0xb680_0000_0000_0000,
            0xb690_0000_0000_0000,
            0xb690_0000_0000_0001,
        ])),
        // around the end of Float
        2 => {
            let edge = 2f64.powi(128) - 2f64.powi(103);
            let b = edge.to_bits();
            let x = f64::from_bits(r.pick(&[
                b - 1,
                b,
                b + 1,
                b - 2,
                (f32::MAX as f64).to_bits(),
                2f64.powi(128).to_bits(),
            ]));
            if r.percent(50) { -x } else { x }
        }
        // around the middle of two floats, subnormal ones too
        3..=5 => {
            let mut b = r.u64() as u32 & 0x7fff_ffff;
            if r.percent(40) {
                b &= 0x00ff_ffff;
            }
            if r.percent(15) {
                b = r.pick(&[0, 1, 2, 0x007f_fffe, 0x007f_ffff, 0x0080_0000, 0x7f7f_fffe]);
            }
            if b >= 0x7f7f_ffff {
                b = 0x3f80_0000;
            }
            let lo = f32::from_bits(b) as f64;
            let hi = f32::from_bits(b + 1) as f64;
            let mid = (lo + hi) / 2.0;
            let m = mid.to_bits();
            let x = f64::from_bits(r.pick(&[m, m, m + 1, m - 1, lo.to_bits(), m + 5]));
            if r.percent(50) { -x } else { x }
        }
        6 => r.below(100_000) as f64 / 16.0,
        _ => f64::from_bits(r.u64()),
    };
    if x.is_finite() { x.to_bits() } else { 1.5f64.to_bits() }
}

/// The bits of a Double.
pub fn double(r: &mut Rng) -> u64 {
    match r.below(6) {
        0 => double_nan(r),
        1 => r.pick(&[0x7ff0_0000_0000_0000, 0xfff0_0000_0000_0000]),
        _ => finite_double(r),
    }
}

pub const WORDS: &[&str] = &[
    "",
    "a",
    "ab",
    "abc",
    "sail",
    "GBR 7",
    "é",
    "ÿ",
    "Ā",
    "日本",
    "😀",
    "NaN",
    "INF",
    "-INF",
    "Infinity",
    "-Infinity",
    "nan",
    "inf",
    "+INF",
    "A",
    "B",
    "C",
    "D",
    "red",
    "\u{0}",
    "\u{80}\u{ff}",
    "0123456789abcdef",
    "x y z",
];

/// A text: a word of the list, letters, code points around a byte, or a UUID.
pub fn text(r: &mut Rng) -> String {
    match r.below(6) {
        0..=2 => r.pick(WORDS).to_string(),
        3 => {
            let n = r.below(14);
            (0..n).map(|_| (b'a' + r.below(26) as u8) as char).collect()
        }
        4 => {
            let n = r.below(18);
            (0..n).map(|_| char::from_u32(r.below(0x120) as u32).unwrap()).collect()
        }
        _ => uuid_text(r),
    }
}

/// UUID text in one of its forms, at times damaged.
pub fn uuid_text(r: &mut Rng) -> String {
    let b = r.bytes(16);
    let mut h = hex(&b);
    match r.below(4) {
        0 => h = h.to_uppercase(),
        1 => {
            h = h.chars().map(|c| if r.percent(50) { c.to_ascii_uppercase() } else { c }).collect();
        }
        _ => {}
    }
    let hy = format!("{}-{}-{}-{}-{}", &h[..8], &h[8..12], &h[12..16], &h[16..20], &h[20..]);
    let mut t = match r.below(6) {
        0 => h,
        1 => format!("{{{hy}}}"),
        2 => format!("urn:uuid:{hy}"),
        _ => hy,
    };
    if r.percent(40) {
        t = damage_text(r, &t);
    }
    t
}

/// Forms that are near to a right one: `h` are 32 digits, `hy` the 36-character form.
pub fn near_uuid(r: &mut Rng) -> String {
    let h = hex(&r.bytes(16));
    let hy = format!("{}-{}-{}-{}-{}", &h[..8], &h[8..12], &h[12..16], &h[16..20], &h[20..]);
    match r.below(16) {
        0 => format!("URN:UUID:{hy}"),
        1 => format!("urn:UUID:{hy}"),
        2 => format!("Urn:uuid:{hy}"),
        3 => format!("{{{h}}}"),
        4 => format!("urn:uuid:{h}"),
        5 => format!("urn:uuid:{{{hy}}}"),
        6 => format!("{{urn:uuid:{hy}}}"),
        7 => format!("{{{hy}"),
        8 => format!("{hy}}}"),
        9 => format!("({hy})"),
        10 => hy.replace('-', "_"),
        11 => {
            // one hyphen is another character
            let i = r.pick(&[8usize, 13, 18, 23]);
            let mut c: Vec<char> = hy.chars().collect();
            c[i] = r.pick(&['0', 'a', ' ', ':']);
            c.into_iter().collect()
        }
        // hyphens in the wrong places, length 36
        12 => format!("{}-{}-{}-{}-{}", &h[..4], &h[4..12], &h[12..16], &h[16..20], &h[20..]),
        13 => format!("{}-{}", &h[..16], &h[16..]),
        14 => format!("{h}0000"),
        _ => format!("{hy}\u{0}"),
    }
}

/// A text with one thing wrong.
pub fn damage_text(r: &mut Rng, t: &str) -> String {
    let mut c: Vec<char> = t.chars().collect();
    let n = c.len();
    match r.below(12) {
        0 => {
            c.pop();
        }
        1 => c.push('0'),
        2 => c[r.below(n)] = 'g',
        3 => c[r.below(n)] = '-',
        4 => c.insert(r.below(n), '-'),
        5 => c[r.below(n)] = 'é',
        6 => return t.replace("urn:uuid:", "URN:UUID:").replace('{', "(").replace('}', ")"),
        7 => return format!("{{{t}}}"),
        8 => return format!("urn:uuid:{t}"),
        9 => return format!(" {t}"),
        10 => {
            // same byte length, one character fewer
            let i = r.below(n - 1);
            c[i] = 'ß';
            c.remove(i + 1);
        }
        _ => {
            let (i, j) = (r.below(n), r.below(n));
            c.swap(i, j);
        }
    }
    c.into_iter().collect()
}

/// A key; their order by bytes differs from that by UTF-16.
pub fn key(r: &mut Rng) -> String {
    r.pick(&[
        "a",
        "b",
        "c",
        "k1",
        "k2",
        "k10",
        "",
        "é",
        "z",
        "A",
        "sail",
        "seq",
        "zz",
        "\u{10ffff}",
        "\u{ffff}",
    ])
    .to_string()
}

/// Bytes that are UTF-8, or nearly.
pub fn utf8_or_not(r: &mut Rng) -> Vec<u8> {
    match r.below(3) {
        0 => r.pick(&[
            vec![0xc0, 0x80],
            vec![0xed, 0xa0, 0x80],
            vec![0xf4, 0x90, 0x80, 0x80],
            vec![0xe2, 0x82],
            vec![0xff],
            vec![0x61, 0x80],
            vec![0xf0, 0x8f, 0xbf, 0xbf],
            vec![0xed, 0x9f, 0xbf],
            vec![0xee, 0x80, 0x80],
            vec![0xf4, 0x8f, 0xbf, 0xbf],
        ]),
        _ => text(r).into_bytes(),
    }
}
