//! "Digest": FNV-1a, 32 bits.

use super::session::Session;

pub fn fnv1a(bytes: impl IntoIterator<Item = u8>) -> u32 {
    bytes
        .into_iter()
        .fold(2_166_136_261, |hash, byte| (hash ^ u32::from(byte)).wrapping_mul(16_777_619))
}

/// The steps made, then each state word, little-endian.
pub fn digest(session: &Session) -> u32 {
    let steps = (session.clock.steps as u32).to_le_bytes();
    let words = session.state.iter().flat_map(|c| [c.x, c.y, c.u, c.v, c.lever]);
    fnv1a(steps.into_iter().chain(words.flat_map(|word| (word as i32).to_le_bytes())))
}

#[cfg(test)]
mod tests {
    use super::fnv1a;

    /// From the authors' published table.
    #[test]
    fn published_vectors() {
        let vectors: [(&str, u32); 7] = [
            ("", 0x811c9dc5),
            ("a", 0xe40c292c),
            ("b", 0xe70c2de5),
            ("foo", 0xa9f37ed7),
            ("foob", 0x3f5076ef),
            ("fooba", 0x39aaa18a),
            ("foobar", 0xbf9cf968),
        ];
        for (text, hash) in vectors {
            assert_eq!(fnv1a(text.bytes()), hash, "{text}");
        }
    }
}
