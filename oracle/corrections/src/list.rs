//! A list of frames as the C entry takes it: one slice of bytes, and where each frame ends in it.

#[derive(Clone, Debug, Default, PartialEq)]
pub struct List {
    pub input: Vec<u8>,
    pub ends: Vec<usize>,
}

impl List {
    /// These frames, one behind the other.
    pub fn of<T: AsRef<[u8]>>(frames: &[T]) -> Self {
        let mut list = List::default();
        for frame in frames {
            list.input.extend_from_slice(frame.as_ref());
            list.ends.push(list.input.len());
        }
        list
    }

    /// Each frame, or none where its end lies past the input or below its start.
    pub fn frames(&self) -> impl Iterator<Item = Option<&[u8]>> {
        let starts = std::iter::once(0).chain(self.ends.iter().copied());
        starts.zip(&self.ends).map(|(start, end)| self.input.get(start..*end))
    }

    /// The input in hexadecimal and the ends, for a message.
    pub fn shown(&self) -> String {
        let ends: Vec<String> = self.ends.iter().map(usize::to_string).collect();
        format!("input {}\nends {}\n", hex(&self.input), ends.join(" "))
    }
}

pub fn hex(bytes: &[u8]) -> String {
    use std::fmt::Write;
    let mut digits = String::with_capacity(2 * bytes.len());
    for byte in bytes {
        write!(digits, "{byte:02x}").unwrap();
    }
    digits
}
