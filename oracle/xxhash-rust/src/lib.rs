//! A stand-in for the crate xxhash-rust. The router hashes tokens by 64-bit FNV-1a, and so must the original beside it.
pub mod xxh3 {
    /// 64-bit FNV-1a, under the name by which the original calls its hash.
    pub fn xxh3_64(bytes: &[u8]) -> u64 {
        bytes.iter().fold(0xcbf29ce484222325, |hash, &byte| {
            (hash ^ u64::from(byte)).wrapping_mul(0x100000001b3)
        })
    }
}

#[cfg(test)]
mod tests {
    use super::xxh3::xxh3_64;

    #[test]
    fn published_vectors() {
        assert_eq!(xxh3_64(b""), 0xcbf29ce484222325);
        assert_eq!(xxh3_64(b"a"), 0xaf63dc4c8601ec8c);
        assert_eq!(xxh3_64(b"foobar"), 0x85944171f73967e8);
    }
}
