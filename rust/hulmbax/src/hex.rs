//! Frames as hexadecimal lines, as program `resolve` reads and writes them.

/// The bytes in small hexadecimal digits.
pub fn encode(bytes: &[u8]) -> String {
    bytes.iter().map(|b| format!("{b:02x}")).collect()
}

/// The bytes of whole pairs of hexadecimal digits, in either case; `None` for any other line.
pub fn decode(line: &str) -> Option<Vec<u8>> {
    let digits: Vec<u8> = line
        .chars()
        .map(|c| c.to_digit(16).map(|d| d as u8))
        .collect::<Option<_>>()?;
    let pairs = digits.chunks_exact(2);
    if !pairs.remainder().is_empty() {
        return None;
    }
    Some(pairs.map(|pair| 16 * pair[0] + pair[1]).collect())
}

#[cfg(test)]
mod tests {
    use super::*;

    #[test]
    fn every_byte_goes_there_and_back() {
        let bytes: Vec<u8> = (0..=u8::MAX).collect();
        assert_eq!(decode(&encode(&bytes)), Some(bytes));
    }

    #[test]
    fn digits_are_small_when_written_and_of_either_case_when_read() {
        assert_eq!(encode(&[0x0a, 0xff]), "0aff");
        assert_eq!(decode("0AfF"), Some(vec![0x0a, 0xff]));
    }

    #[test]
    fn a_line_that_is_not_whole_pairs_is_none() {
        assert_eq!(decode(""), Some(vec![]));
        for line in ["0", "0a0", "0g", "0a ", "0x0a", "\u{ff11}0"] {
            assert_eq!(decode(line), None, "{line}");
        }
    }
}
