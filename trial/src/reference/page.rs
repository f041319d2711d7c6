//! The page, section 10.

/// The line did not fit whole (refusal 13), and nothing of it was written.
pub struct DoesNotFit;

/// Lines up to a limit of bytes.
pub struct Page {
    bytes: Vec<u8>,
    limit: usize,
}

impl Page {
    pub fn new(limit: usize) -> Page {
        Page {
            bytes: Vec::new(),
            limit,
        }
    }

    /// Writes the line and the byte 10 at its end, both or nothing.
    pub fn write_line(&mut self, line: &str) -> Result<(), DoesNotFit> {
        let length = line.len() + 1;
        if self.bytes.len() + length > self.limit {
            return Err(DoesNotFit);
        }
        self.bytes.extend_from_slice(line.as_bytes());
        self.bytes.push(b'\n');
        Ok(())
    }

    /// Everything that was written.
    pub fn into_bytes(self) -> Vec<u8> {
        self.bytes
    }
}
