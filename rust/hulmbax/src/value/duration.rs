// Avro's duration.

/// An amount of time in three units that never add up to one.
#[derive(Clone, Copy, Debug, Default, PartialEq, Eq)]
pub struct Duration {
    /// Months.
    pub months: u32,
    /// Days.
    pub days: u32,
    /// Milliseconds.
    pub millis: u32,
}

/// Avro's 12 bytes: each unit has 4, low byte first.
impl From<Duration> for [u8; 12] {
    fn from(d: Duration) -> [u8; 12] {
        let mut bytes = [0; 12];
        let units = [d.months, d.days, d.millis];
        for (four, unit) in bytes.chunks_exact_mut(4).zip(units) {
            four.copy_from_slice(&unit.to_le_bytes());
        }
        bytes
    }
}

/// Avro's 12 bytes: each unit has 4, low byte first.
impl From<[u8; 12]> for Duration {
    fn from(b: [u8; 12]) -> Duration {
        Duration {
            months: u32::from_le_bytes([b[0], b[1], b[2], b[3]]),
            days: u32::from_le_bytes([b[4], b[5], b[6], b[7]]),
            millis: u32::from_le_bytes([b[8], b[9], b[10], b[11]]),
        }
    }
}
