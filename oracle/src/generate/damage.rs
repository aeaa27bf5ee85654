//! Damage to frames and lines.
use super::Case;
use super::random::Rng;
use super::scalars::key;
use crate::frame::{Value, hex};

/// A frame with a few bytes changed, cut off, put in or left out.
pub fn damage(r: &mut Rng, mut b: Vec<u8>) -> Vec<u8> {
    if b.is_empty() {
        return b;
    }
    for _ in 0..r.pick(&[1, 1, 1, 2, 3]) {
        if b.is_empty() {
            break;
        }
        let i = r.below(b.len());
        match r.below(9) {
            0 => b.truncate(i),
            1 => {
                b.pop();
            }
            2 => b.push(r.u64() as u8),
            3 => b[i] ^= 1 << r.below(8),
            4 => b[i] = r.u64() as u8,
            5 => b[i] = b[i].wrapping_add(1),
            6 => {
                b.remove(i);
            }
            7 => b.insert(i, r.u64() as u8),
            _ => b[i] = r.below(0x1c) as u8,
        }
    }
    b
}

/// A map whose keys may fall or repeat.
pub fn unruly_map(r: &mut Rng) -> Value {
    let a = key(r);
    let b = if r.percent(30) { a.clone() } else { key(r) };
    Value::Map(vec![(a, Value::Null), (b, Value::Int(1))])
}

/// Puts the entries of some maps out of order, or one in twice.
pub fn unruly(r: &mut Rng, v: Value) -> Value {
    match v {
        Value::Map(i) => {
            let mut i: Vec<(String, Value)> = i.into_iter().map(|(k, v)| (k, unruly(r, v))).collect();
            match r.below(6) {
                0 => r.shuffle(&mut i),
                1 if !i.is_empty() => {
                    let j = r.below(i.len());
                    i.insert(j, i[j].clone());
                }
                _ => {}
            }
            Value::Map(i)
        }
        Value::Array(i) => Value::Array(i.into_iter().map(|v| unruly(r, v)).collect()),
        Value::Record(i) => Value::Record(i.into_iter().map(|(k, v)| (k, unruly(r, v))).collect()),
        Value::Union(k, v) => Value::union(k, unruly(r, *v)),
        v => v,
    }
}

/// Lines that are no whole byte pairs, capitals, and a last line without its newline.
pub fn rough(r: &mut Rng, (s, v): &Case) -> Vec<u8> {
    let mut t = hex(s);
    match r.below(8) {
        0 => {
            t.pop();
        }
        1 => t.push('G'),
        2 => t.clear(),
        3..=5 => t = t.to_uppercase(),
        _ => {}
    }
    for b in v {
        t.push('\n');
        let mut l = hex(b);
        match r.below(8) {
            0 => l = l.to_uppercase(),
            1 => {
                l.pop();
            }
            2 => l.push('g'),
            3 => l.insert(l.len() / 2, ' '),
            4 => l.clear(),
            5 => l.push('\r'),
            _ => {}
        }
        t.push_str(&l);
    }
    if r.percent(70) {
        t.push('\n');
    }
    t.into_bytes()
}
