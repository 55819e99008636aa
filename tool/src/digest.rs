//! FNV-1a of 64 bits: tells a torn entry from a whole one, and one table from another. It guards against accidents, not against forgery.

/// The digest of some bytes. That of no bytes stands for "there is no table".
pub fn digest(bytes: &[u8]) -> u64 {
    bytes.iter().fold(0xcbf2_9ce4_8422_2325, |sum, byte| (sum ^ u64::from(*byte)).wrapping_mul(0x0000_0100_0000_01b3))
}

#[cfg(test)]
mod tests {
    use super::digest;

    /// The values that the function's authors give.
    #[test]
    fn known_values() {
        assert_eq!(digest(b""), 0xcbf2_9ce4_8422_2325);
        assert_eq!(digest(b"a"), 0xaf63_dc4c_8601_ec8c);
        assert_eq!(digest(b"foobar"), 0x8594_4171_f739_67e8);
    }
}
