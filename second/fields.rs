//! Little-endian numbers in bytes.

pub fn u16_at(bytes: &[u8], place: usize) -> u16 {
    u16::from_le_bytes([bytes[place], bytes[place + 1]])
}

pub fn u32_at(bytes: &[u8], place: usize) -> u32 {
    u32::from(u16_at(bytes, place)) + 65_536 * u32::from(u16_at(bytes, place + 2))
}

/// Takes one field after the other off a body; nothing is had once the body is too short.
pub struct Fields<'a> {
    rest: &'a [u8],
}

impl<'a> Fields<'a> {
    pub fn of(body: &'a [u8]) -> Fields<'a> {
        Fields { rest: body }
    }

    pub fn u16(&mut self) -> Option<u16> {
        Some(u16_at(self.take(2)?, 0))
    }

    pub fn u32(&mut self) -> Option<u32> {
        Some(u32_at(self.take(4)?, 0))
    }

    pub fn u64(&mut self) -> Option<u64> {
        Some(u64::from(self.u32()?) + (u64::from(self.u32()?) << 32))
    }

    /// The same four bytes as a number of either sign.
    pub fn i32(&mut self) -> Option<i32> {
        Some(self.u32()? as i32)
    }

    /// A length of at most `most`, and that many entries.
    pub fn list<T>(
        &mut self,
        most: u16,
        entry: impl Fn(&mut Fields<'a>) -> Option<T>,
    ) -> Option<Vec<T>> {
        let length = self.u16()?;
        if length > most {
            return None;
        }
        (0..length).map(|_| entry(self)).collect()
    }

    /// What is left of the body.
    pub fn rest(&self) -> &'a [u8] {
        self.rest
    }

    pub fn at_end(&self) -> bool {
        self.rest.is_empty()
    }

    fn take(&mut self, count: usize) -> Option<&'a [u8]> {
        if self.rest.len() < count {
            return None;
        }
        let (taken, rest) = self.rest.split_at(count);
        self.rest = rest;
        Some(taken)
    }
}
