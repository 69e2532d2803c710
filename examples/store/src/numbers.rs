// SPDX-License-Identifier: Apache-2.0
//! Numbers in bytes, the lowest byte first.

/// The two bytes at this place.
pub fn small(bytes: &[u8], at: usize) -> usize {
    usize::from(u16::from_le_bytes([bytes[at], bytes[at + 1]]))
}

/// Sets the two bytes at this place. The number is below 65,536.
pub fn set_small(bytes: &mut [u8], at: usize, number: usize) {
    bytes[at..at + 2].copy_from_slice(&(number as u16).to_le_bytes());
}

/// The four bytes at this place.
pub fn middle(bytes: &[u8], at: usize) -> u32 {
    u32::from_le_bytes(bytes[at..at + 4].try_into().expect("four bytes"))
}

/// Sets the four bytes at this place.
pub fn set_middle(bytes: &mut [u8], at: usize, number: u32) {
    bytes[at..at + 4].copy_from_slice(&number.to_le_bytes());
}

/// The eight bytes at this place.
pub fn large(bytes: &[u8], at: usize) -> u64 {
    u64::from_le_bytes(bytes[at..at + 8].try_into().expect("eight bytes"))
}

/// Sets the eight bytes at this place.
pub fn set_large(bytes: &mut [u8], at: usize, number: u64) {
    bytes[at..at + 8].copy_from_slice(&number.to_le_bytes());
}

/// Takes numbers and bytes from the front of a text; none where it is too short.
pub struct Reader<'a>(pub &'a [u8]);

impl<'a> Reader<'a> {
    /// The next so many bytes.
    pub fn bytes(&mut self, length: usize) -> Option<&'a [u8]> {
        let (front, rest) = self.0.split_at_checked(length)?;
        self.0 = rest;
        Some(front)
    }

    /// The next byte.
    pub fn byte(&mut self) -> Option<u8> {
        Some(self.bytes(1)?[0])
    }

    /// The next two bytes.
    pub fn small(&mut self) -> Option<usize> {
        Some(small(self.bytes(2)?, 0))
    }

    /// The next four bytes.
    pub fn middle(&mut self) -> Option<u32> {
        Some(middle(self.bytes(4)?, 0))
    }

    /// The next eight bytes.
    pub fn large(&mut self) -> Option<u64> {
        Some(large(self.bytes(8)?, 0))
    }
}
