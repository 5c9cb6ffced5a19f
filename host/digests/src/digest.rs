//! The digest.

use std::fmt::{self, Display, Formatter};

/// FNV-1a of 64 bits (Fowler, Noll, Vo), of bytes that come piece by piece. It is
/// printed in hexadecimal.
#[derive(Clone, Copy, Debug, PartialEq, Eq)]
pub struct Digest(u64);

impl Default for Digest {
    /// That of no byte.
    fn default() -> Digest {
        Digest(0xcbf2_9ce4_8422_2325)
    }
}

impl Digest {
    pub fn update(&mut self, bytes: &[u8]) {
        for &byte in bytes {
            self.0 = (self.0 ^ u64::from(byte)).wrapping_mul(0x0100_0000_01b3);
        }
    }
}

impl Display for Digest {
    fn fmt(&self, f: &mut Formatter) -> fmt::Result {
        write!(f, "{:016x}", self.0)
    }
}

#[cfg(test)]
mod tests {
    use super::*;

    fn of(pieces: &[&str]) -> Digest {
        let mut digest = Digest::default();
        for piece in pieces {
            digest.update(piece.as_bytes());
        }
        digest
    }

    /// Of the vectors that its authors publish, the last of them a digest of 0.
    #[test]
    fn known_digests() {
        for (text, digest) in [
            ("", "cbf29ce484222325"),
            ("a", "af63dc4c8601ec8c"),
            ("foobar", "85944171f73967e8"),
            ("chongo was here!\n", "46810940eff5f915"),
            ("77kepQFQ8Kl", "0000000000000000"),
        ] {
            assert_eq!(of(&[text]).to_string(), digest);
        }
    }

    #[test]
    fn pieces_are_as_the_whole() {
        assert_eq!(of(&["fo", "", "o", "bar"]), of(&["foobar"]));
    }

    #[test]
    fn order_matters() {
        assert_ne!(of(&["bar", "foo"]), of(&["foo", "bar"]));
    }

    #[test]
    fn every_bit_matters() {
        let bytes = [0; 16];
        let mut whole = Digest::default();
        whole.update(&bytes);
        for bit in 0..8 * bytes.len() {
            let mut changed = bytes;
            changed[bit / 8] ^= 1 << (bit % 8);
            let mut digest = Digest::default();
            digest.update(&changed);
            assert_ne!(digest, whole, "bit {bit}");
        }
    }
}
