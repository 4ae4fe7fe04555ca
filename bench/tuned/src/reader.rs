//! Fields read one after the other, each with the byte that ends it.

/// A word field: where its letters start, how many they are, and the last letter of the alphabet among them.
#[derive(Clone, Copy)]
pub struct Field {
    pub start: usize,
    pub len: usize,
    pub top: u8,
}

pub struct Reader<'a> {
    pub bytes: &'a [u8],
    pub at: usize,
}

impl<'a> Reader<'a> {
    pub fn new(bytes: &'a [u8]) -> Reader<'a> {
        Reader { bytes, at: 0 }
    }

    #[inline(always)]
    pub fn is_done(&self) -> bool {
        self.at >= self.bytes.len()
    }

    /// The next byte.
    #[inline(always)]
    pub fn byte(&mut self) -> Option<u8> {
        let byte = *self.bytes.get(self.at)?;
        self.at += 1;
        Some(byte)
    }

    /// Goes behind a line that is these bytes, byte 10 included.
    #[inline(always)]
    pub fn line(&mut self, line: &[u8]) -> Option<()> {
        self.bytes.get(self.at..)?.starts_with(line).then(|| self.at += line.len())
    }

    /// A number, one to five digits without a leading zero except `0` itself, and the byte that ends it.
    #[inline(always)]
    pub fn number(&mut self, end: u8) -> Option<u32> {
        let first = self.byte()?.wrapping_sub(b'0');
        if first > 9 {
            return None;
        }
        let mut value = u32::from(first);
        for _ in 0..5 {
            let byte = self.byte()?;
            if byte == end {
                return Some(value);
            }
            let digit = byte.wrapping_sub(b'0');
            if digit > 9 || value == 0 {
                return None;
            }
            value = value * 10 + u32::from(digit);
        }
        // Five digits were taken, and a sixth byte that did not end the number.
        None
    }

    /// A word, `-` or letters, and the byte that ends it.
    #[inline(always)]
    pub fn word(&mut self, end: u8) -> Option<Field> {
        let start = self.at;
        let mut top = 0;
        let mut len = 0;
        for &byte in self.bytes.get(start..)? {
            if byte.wrapping_sub(b'a') > 25 {
                break;
            }
            top = top.max(byte);
            len += 1;
        }
        self.at = start + len;
        let mut stop = self.byte()?;
        if len == 0 {
            if stop != b'-' {
                return None;
            }
            stop = self.byte()?;
        }
        (stop == end).then_some(Field { start, len, top })
    }
}
