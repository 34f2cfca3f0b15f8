//! SHA-256, as FIPS 180-4 has it.

/// The digest of the bytes, in 64 lower-case hex digits.
pub fn hex_digest(bytes: &[u8]) -> String {
    let bits = 8 * bytes.len() as u64;
    let zeros = (119 - bytes.len() % 64) % 64;
    let end = [&[0x80][..], &vec![0; zeros], &bits.to_be_bytes()].concat();
    let mut hash = FIRST;
    for block in [bytes, &end[..]].concat().chunks_exact(64) {
        add_block(&mut hash, block);
    }
    hash.map(|word| format!("{word:08x}")).concat()
}

/// "the fractional parts of the square roots of the first eight prime numbers".
const FIRST: [u32; 8] = [
    0x6a09e667, 0xbb67ae85, 0x3c6ef372, 0xa54ff53a, 0x510e527f, 0x9b05688c, 0x1f83d9ab, 0x5be0cd19,
];

/// "the fractional parts of the cube roots of the first sixty-four prime numbers".
const K: [u32; 64] = [
    0x428a2f98, 0x71374491, 0xb5c0fbcf, 0xe9b5dba5, 0x3956c25b, 0x59f111f1, 0x923f82a4, 0xab1c5ed5,
    0xd807aa98, 0x12835b01, 0x243185be, 0x550c7dc3, 0x72be5d74, 0x80deb1fe, 0x9bdc06a7, 0xc19bf174,
    0xe49b69c1, 0xefbe4786, 0x0fc19dc6, 0x240ca1cc, 0x2de92c6f, 0x4a7484aa, 0x5cb0a9dc, 0x76f988da,
    0x983e5152, 0xa831c66d, 0xb00327c8, 0xbf597fc7, 0xc6e00bf3, 0xd5a79147, 0x06ca6351, 0x14292967,
    0x27b70a85, 0x2e1b2138, 0x4d2c6dfc, 0x53380d13, 0x650a7354, 0x766a0abb, 0x81c2c92e, 0x92722c85,
    0xa2bfe8a1, 0xa81a664b, 0xc24b8b70, 0xc76c51a3, 0xd192e819, 0xd6990624, 0xf40e3585, 0x106aa070,
    0x19a4c116, 0x1e376c08, 0x2748774c, 0x34b0bcb5, 0x391c0cb3, 0x4ed8aa4a, 0x5b9cca4f, 0x682e6ff3,
    0x748f82ee, 0x78a5636f, 0x84c87814, 0x8cc70208, 0x90befffa, 0xa4506ceb, 0xbef9a3f7, 0xc67178f2,
];

fn add_block(hash: &mut [u32; 8], block: &[u8]) {
    let mut w = [0; 64];
    for (word, bytes) in w.iter_mut().zip(block.chunks_exact(4)) {
        *word = u32::from_be_bytes([bytes[0], bytes[1], bytes[2], bytes[3]]);
    }
    let small = |x: u32, a: u32, b: u32, c: u32| x.rotate_right(a) ^ x.rotate_right(b) ^ (x >> c);
    for t in 16..64 {
        w[t] = small(w[t - 2], 17, 19, 10)
            .wrapping_add(w[t - 7])
            .wrapping_add(small(w[t - 15], 7, 18, 3))
            .wrapping_add(w[t - 16]);
    }
    let large = |x: u32, a, b, c| x.rotate_right(a) ^ x.rotate_right(b) ^ x.rotate_right(c);
    let [mut a, mut b, mut c, mut d, mut e, mut f, mut g, mut h] = *hash;
    for (k, w) in K.into_iter().zip(w) {
        let choice = (e & f) ^ (!e & g);
        let majority = (a & b) ^ (a & c) ^ (b & c);
        let one = [large(e, 6, 11, 25), choice, k, w];
        let one = one.into_iter().fold(h, u32::wrapping_add);
        let two = large(a, 2, 13, 22).wrapping_add(majority);
        (h, g, f, e) = (g, f, e, d.wrapping_add(one));
        (d, c, b, a) = (c, b, a, one.wrapping_add(two));
    }
    for (word, new) in hash.iter_mut().zip([a, b, c, d, e, f, g, h]) {
        *word = word.wrapping_add(new);
    }
}

#[cfg(test)]
mod tests {
    use super::hex_digest;

    /// The vectors of FIPS 180-4's examples, and of no bytes.
    #[test]
    fn vectors() {
        let two_blocks = b"abcdbcdecdefdefgefghfghighijhijkijkljklmklmnlmnomnopnopq";
        for (bytes, digest) in [
            (
                &b""[..],
                "e3b0c44298fc1c149afbf4c8996fb92427ae41e4649b934ca495991b7852b855",
            ),
            (
                b"abc",
                "ba7816bf8f01cfea414140de5dae2223b00361a396177a9cb410ff61f20015ad",
            ),
            (
                two_blocks,
                "248d6a61d20638b8e5c026930c3e6039a33ce45964ff2167f6ecedd419db06c1",
            ),
            (
                &[b'a'; 1_000_000],
                "cdc76e5c9914fb9281a1c7e284d73e67f1809a48a497200e046d39ccc7112cd0",
            ),
        ] {
            assert_eq!(hex_digest(bytes), digest);
        }
    }

    /// The end of the last block, at every length of it: the digests of 0 to 129 zero bytes, joined.
    #[test]
    fn every_length_of_a_last_block() {
        let digests: Vec<String> = (0..130).map(|n| hex_digest(&vec![0; n])).collect();
        assert_eq!(
            hex_digest(digests.concat().as_bytes()),
            "914e28f3bcba36351cc83a523f3ecdae91d5d2ab1d5409e8eb593aa76ad53f18"
        );
    }
}
