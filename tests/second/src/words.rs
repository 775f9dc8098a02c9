//! Words as bytes, the lowest first, and their hashes.

/// The words of bytes; what is left at the end is dropped.
pub fn of_bytes(bytes: &[u8]) -> Vec<u32> {
    bytes.chunks_exact(4).map(|b| u32::from_le_bytes([b[0], b[1], b[2], b[3]])).collect()
}

/// FNV-1a of 64 bits over the words' bytes.
pub fn hash64(words: &[u32]) -> u64 {
    let bytes = words.iter().flat_map(|word| word.to_le_bytes());
    bytes.fold(0xcbf2_9ce4_8422_2325, |hash, byte| (hash ^ u64::from(byte)).wrapping_mul(0x100_0000_01b3))
}

/// FNV-1a of 32 bits over whole words.
pub fn hash32(words: impl IntoIterator<Item = u32>) -> u32 {
    words.into_iter().fold(2_166_136_261, |hash, word| (hash ^ word).wrapping_mul(16_777_619))
}
