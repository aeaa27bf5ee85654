//! Damage to frames, and to the places where they end.
use crate::list::List;
use crate::random::Rng;

/// A frame with a few bytes changed, cut off, put in or left out.
pub fn damaged(r: &mut Rng, mut frame: Vec<u8>) -> Vec<u8> {
    for _ in 0..r.pick(&[1, 1, 1, 2, 4]) {
        if frame.is_empty() {
            break;
        }
        let at = r.below(frame.len());
        match r.below(10) {
            0 => frame.truncate(at),
            1 => drop(frame.pop()),
            2 => frame.push(r.byte()),
            3 => frame[at] ^= 1 << r.below(8),
            4 => frame[at] = r.byte(),
            5 => frame[at] = frame[at].wrapping_add(1),
            6 => frame[at] = frame[at].wrapping_sub(1),
            7 => drop(frame.remove(at)),
            8 => frame.insert(at, r.byte()),
            _ => frame[at] = r.below(0x1c) as u8,
        }
    }
    frame
}

/// Ends that are not where the frames end.
pub fn misplace(r: &mut Rng, list: &mut List) {
    let len = list.input.len();
    let at = r.below(list.ends.len());
    let end = list.ends[at];
    let (step, last) = (r.within(1, 3), list.ends.len() - 1);
    match r.below(10) {
        0 => list.ends[at] = end - step.min(end),
        1 => list.ends[at] = end + step,
        // past the input, by one or by far
        2 => list.ends[at] = len + step,
        3 => {
            list.ends[at] =
                r.pick(&[usize::MAX, usize::MAX - 1, 1 << 63, (1 << 63) - 1, 1 << 32, end | 1 << 32])
        }
        // what wraps to where the frame ends
        4 => list.ends[at] = end.wrapping_add(r.pick(&[1 << 16, 1 << 32, 1 << 48, 1 << 63])),
        // no frame between two ends
        5 => list.ends.insert(at, end),
        6 => list.ends.insert(0, 0),
        7 => list.ends.swap(at, r.pick(&[0, last])),
        // frames that run together
        8 => drop(list.ends.remove(at)),
        _ => list.ends[at] = r.below(len + 2),
    }
}
