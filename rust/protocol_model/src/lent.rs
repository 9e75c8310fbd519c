//! Memory that is lent to a call, between bytes that no call may touch.

/// Bytes before and behind what is lent.
const GUARD: usize = 16;
const GUARDED: u8 = 0xa5;

/// Bytes that are lent.
pub struct Lent(Vec<u8>);

impl Lent {
    /// Holds these bytes at first.
    pub fn new(bytes: &[u8]) -> Lent {
        Lent([&[GUARDED; GUARD], bytes, &[GUARDED; GUARD]].concat())
    }

    pub fn bytes(&self) -> &[u8] {
        &self.0[GUARD..self.0.len() - GUARD]
    }

    pub fn bytes_mut(&mut self) -> &mut [u8] {
        let end = self.0.len() - GUARD;
        &mut self.0[GUARD..end]
    }

    /// Whether what is around them is as it was.
    pub fn is_apart(&self) -> bool {
        self.0[..GUARD] == [GUARDED; GUARD] && self.0[self.0.len() - GUARD..] == [GUARDED; GUARD]
    }

    /// The first place where they are not as these, which are as many.
    pub fn difference(&self, others: &[u8]) -> Option<usize> {
        let ours = self.bytes();
        if ours == others { None } else { ours.iter().zip(others).position(|(ours, other)| ours != other) }
    }
}
