// SPDX-License-Identifier: Apache-2.0
//! CRC-32C, eight bytes at a time by tables.

/// The polynomial of Castagnoli, the lowest bit first.
const POLYNOMIAL: u32 = 0x82f6_3b78;

const fn tables() -> [[u32; 256]; 8] {
    let mut tables = [[0; 256]; 8];
    let mut byte = 0;
    while byte < 256 {
        let (mut sum, mut bit) = (byte as u32, 0);
        while bit < 8 {
            sum = (sum >> 1) ^ (POLYNOMIAL & (sum & 1).wrapping_neg());
            bit += 1;
        }
        tables[0][byte] = sum;
        byte += 1;
    }
    let mut table = 1;
    while table < 8 {
        let mut byte = 0;
        while byte < 256 {
            let before = tables[table - 1][byte];
            tables[table][byte] = (before >> 8) ^ tables[0][(before & 255) as usize];
            byte += 1;
        }
        table += 1;
    }
    tables
}

static TABLES: [[u32; 256]; 8] = tables();

/// The sum of the bytes.
pub fn sum_of(bytes: &[u8]) -> u32 {
    let mut sum = u32::MAX;
    let mut eights = bytes.chunks_exact(8);
    for eight in &mut eights {
        let low = u32::from_le_bytes([eight[0], eight[1], eight[2], eight[3]]) ^ sum;
        sum = 0;
        for place in 0..4 {
            sum ^= TABLES[7 - place][(low >> (8 * place) & 255) as usize];
            sum ^= TABLES[3 - place][eight[4 + place] as usize];
        }
    }
    for byte in eights.remainder() {
        sum = (sum >> 8) ^ TABLES[0][((sum ^ u32::from(*byte)) & 255) as usize];
    }
    !sum
}

#[cfg(test)]
mod tests {
    use super::sum_of;

    /// The test vectors of RFC 3720, B.4.
    #[test]
    fn sums_are_those_of_rfc_3720() {
        assert_eq!(sum_of(b""), 0);
        assert_eq!(sum_of(b"123456789"), 0xe306_9283);
        assert_eq!(sum_of(&[0; 32]), 0x8a91_36aa);
        assert_eq!(sum_of(&[255; 32]), 0x62a8_ab43);
        let rising: Vec<u8> = (0..32).collect();
        assert_eq!(sum_of(&rising), 0x46dd_794e);
    }
}
