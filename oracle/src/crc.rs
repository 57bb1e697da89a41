//! CRC-32 for `look` and for the generator, apart from the source's own.

const TABLES: [[u32; 256]; 8] = tables();

const fn tables() -> [[u32; 256]; 8] {
    let mut tables = [[0u32; 256]; 8];
    let mut i = 0;
    while i < 256 {
        let mut crc = i as u32;
        let mut bit = 0;
        while bit < 8 {
            crc = if crc & 1 == 1 {
                (crc >> 1) ^ 0xEDB8_8320
            } else {
                crc >> 1
            };
            bit += 1;
        }
        tables[0][i] = crc;
        i += 1;
    }
    let mut t = 1;
    while t < 8 {
        let mut i = 0;
        while i < 256 {
            let before = tables[t - 1][i];
            tables[t][i] = (before >> 8) ^ tables[0][(before & 0xFF) as usize];
            i += 1;
        }
        t += 1;
    }
    tables
}

/// The CRC-32 of ITU-T V.42, eight bytes a turn.
pub fn crc32(bytes: &[u8]) -> u32 {
    let mut crc = u32::MAX;
    let mut turns = bytes.chunks_exact(8);
    for turn in &mut turns {
        let low = crc ^ u32::from_le_bytes(turn[..4].try_into().unwrap());
        let high = u32::from_le_bytes(turn[4..].try_into().unwrap());
        crc = 0;
        for i in 0..4 {
            crc ^= TABLES[7 - i][(low >> (8 * i)) as usize & 0xFF];
            crc ^= TABLES[3 - i][(high >> (8 * i)) as usize & 0xFF];
        }
    }
    for &byte in turns.remainder() {
        crc = (crc >> 8) ^ TABLES[0][((crc ^ byte as u32) & 0xFF) as usize];
    }
    !crc
}

#[cfg(test)]
mod tests {
    use super::crc32;
    use crate::aic_upg::protocol::crc32_update;

    #[test]
    fn known_values() {
        assert_eq!(crc32(b"123456789"), 0xCBF4_3926);
        assert_eq!(crc32(b""), 0);
    }

    #[test]
    fn equals_the_source() {
        let bytes: Vec<u8> = (0..100u32).map(|i| (i * i + 7) as u8).collect();
        for n in 0..bytes.len() {
            assert_eq!(crc32(&bytes[..n]), crc32_update(0, &bytes[..n]));
        }
    }
}
