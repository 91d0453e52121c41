//! Lists of bits, and the bytes and symbols that they make.
//!
//! The first bit of a byte is its highest, the first bit of a symbol that of z^9.

const BYTE: usize = 8;
const SYMBOL: usize = 10;

/// The bits of bytes.
pub fn from_bytes(bytes: &[u8]) -> Vec<bool> {
    let mut bits = vec![false; BYTE * bytes.len()];
    for (group, byte) in bits.chunks_exact_mut(BYTE).zip(bytes) {
        for (i, bit) in group.iter_mut().enumerate() {
            *bit = (byte >> (BYTE - 1 - i)) & 1 == 1;
        }
    }
    bits
}

/// The bytes made of eight bits each.
pub fn to_bytes(bits: &[bool]) -> Vec<u8> {
    let append = |byte, &bit: &bool| (byte << 1) | u8::from(bit);
    bits.chunks_exact(BYTE).map(|group| group.iter().fold(0, append)).collect()
}

/// The bits of symbols.
pub fn from_symbols(symbols: &[u16]) -> Vec<bool> {
    let mut bits = vec![false; SYMBOL * symbols.len()];
    for (group, symbol) in bits.chunks_exact_mut(SYMBOL).zip(symbols) {
        for (i, bit) in group.iter_mut().enumerate() {
            *bit = (symbol >> (SYMBOL - 1 - i)) & 1 == 1;
        }
    }
    bits
}

/// The symbols made of ten bits each.
pub fn to_symbols(bits: &[bool]) -> Vec<u16> {
    let append = |symbol, &bit: &bool| (symbol << 1) | u16::from(bit);
    bits.chunks_exact(SYMBOL).map(|group| group.iter().fold(0, append)).collect()
}
