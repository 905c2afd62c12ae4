//! The checksum of document 01, stage 7: CRC32C, Castagnoli's polynomial, reflected, start and
//! final exclusive-or all ones.

/// Castagnoli's polynomial with its bits in reflected order.
const POLYNOMIAL: u32 = 0x82f6_3b78;

const TABLE: [u32; 256] = table();

const fn table() -> [u32; 256] {
    let mut table = [0; 256];
    let mut byte = 0;
    while byte < 256 {
        table[byte] = shifted_eight_times(byte as u32);
        byte += 1;
    }
    table
}

const fn shifted_eight_times(start: u32) -> u32 {
    let mut value = start;
    let mut bit = 0;
    while bit < 8 {
        value = if value & 1 == 1 { (value >> 1) ^ POLYNOMIAL } else { value >> 1 };
        bit += 1;
    }
    value
}

pub fn crc32c(bytes: &[u8]) -> u32 {
    let mut crc = u32::MAX;
    for byte in bytes {
        let low = (crc ^ u32::from(*byte)) & 0xff;
        crc = TABLE[low as usize] ^ (crc >> 8);
    }
    !crc
}
