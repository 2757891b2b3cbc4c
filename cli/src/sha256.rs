//! SHA-256 (FIPS 180-4), by the processor's own instructions where it has them.

use std::arch::x86_64::*;
use std::fmt::Write;

/// The first 32 bits of the fractional parts of the cube roots of the first 64 primes.
const K: [u32; 64] = [
    0x428a2f98, 0x71374491, 0xb5c0fbcf, 0xe9b5dba5, 0x3956c25b, 0x59f111f1, 0x923f82a4, 0xab1c5ed5,
    0xd807aa98, 0x12835b01, 0x243185be, 0x550c7dc3, 0x72be5d74, 0x80deb1fe, 0x9bdc06a7, 0xc19bf174,
    0xe49b69c1, 0xefbe4786, 0x0fc19dc6, 0x240ca1cc, 0x2de92c6f, 0x4a7484aa, 0x5cb0a9dc, 0x76f988da,
    0x983e5152, 0xa831c66d, 0xb00327c8, 0xbf597fc7, 0xc6e00bf3, 0xd5a79147, 0x06ca6351, 0x14292967,
    0x27b70a85, 0x2e1b2138, 0x4d2c6dfc, 0x53380d13, 0x650a7354, 0x766a0abb, 0x81c2c92e, 0x92722c85,
    0xa2bfe8a1, 0xa81a664b, 0xc24b8b70, 0xc76c51a3, 0xd192e819, 0xd6990624, 0xf40e3585, 0x106aa070,
    0x19a4c116, 0x1e376c08, 0x2748774c, 0x34b0bcb5, 0x391c0cb3, 0x4ed8aa4a, 0x5b9cca4f, 0x682e6ff3,
    0x748f82ee, 0x78a5636f, 0x84c87814, 0x8cc70208, 0x90befffa, 0xa4506ceb, 0xbef9a3f7, 0xc67178f2,
];

/// The same of the square roots of the first eight.
const START: [u32; 8] = [
    0x6a09e667, 0xbb67ae85, 0x3c6ef372, 0xa54ff53a, 0x510e527f, 0x9b05688c, 0x1f83d9ab, 0x5be0cd19,
];

const BLOCK: usize = 64;

/// Takes whole blocks into the state.
type Compress = fn(&mut [u32; 8], &[u8]);

pub struct Sha256 {
    state: [u32; 8],
    length: usize,
    /// The bytes behind the last whole block, `length % BLOCK` of them.
    rest: [u8; BLOCK],
    compress: Compress,
}

/// In hexadecimal, of parts one behind the other.
pub fn digest_of(parts: &[&[u8]]) -> String {
    let mut sha256 = Sha256::by(fastest());
    parts.iter().for_each(|part| sha256.take(part));
    sha256.finish()
}

impl Sha256 {
    fn by(compress: Compress) -> Sha256 {
        Sha256 {
            state: START,
            length: 0,
            rest: [0; BLOCK],
            compress,
        }
    }

    fn take(&mut self, mut bytes: &[u8]) {
        let filled = self.length % BLOCK;
        self.length += bytes.len();
        if filled > 0 {
            let (first, others) = bytes.split_at(bytes.len().min(BLOCK - filled));
            self.rest[filled..][..first.len()].copy_from_slice(first);
            if filled + first.len() < BLOCK {
                return;
            }
            (self.compress)(&mut self.state, &self.rest);
            bytes = others;
        }
        let (whole, rest) = bytes.split_at(bytes.len() - bytes.len() % BLOCK);
        (self.compress)(&mut self.state, whole);
        self.rest[..rest.len()].copy_from_slice(rest);
    }

    /// A bit 1, zeros up to eight bytes before a block's end, and there the number of bits.
    fn finish(mut self) -> String {
        let bits = 8 * self.length as u64;
        let zeros = (2 * BLOCK - 9 - self.length % BLOCK) % BLOCK;
        self.take(&[0x80]);
        self.take(&[0; BLOCK][..zeros]);
        self.take(&bits.to_be_bytes());
        let mut hex = String::new();
        for word in self.state {
            let _ = write!(hex, "{word:08x}"); // a String takes all that is written
        }
        hex
    }
}

fn fastest() -> Compress {
    if is_x86_feature_detected!("sha")
        && is_x86_feature_detected!("ssse3")
        && is_x86_feature_detected!("sse4.1")
    {
        // SAFETY: the processor has the instructions.
        |state, blocks| unsafe { compress_by_instructions(state, blocks) }
    } else {
        compress
    }
}

fn compress(state: &mut [u32; 8], blocks: &[u8]) {
    for block in blocks.as_chunks::<BLOCK>().0 {
        let mut w = [0; 64];
        for (word, bytes) in w.iter_mut().zip(block.as_chunks().0) {
            *word = u32::from_be_bytes(*bytes);
        }
        for t in 16..64 {
            let s0 = w[t - 15].rotate_right(7) ^ w[t - 15].rotate_right(18) ^ (w[t - 15] >> 3);
            let s1 = w[t - 2].rotate_right(17) ^ w[t - 2].rotate_right(19) ^ (w[t - 2] >> 10);
            w[t] = s1
                .wrapping_add(w[t - 7])
                .wrapping_add(s0)
                .wrapping_add(w[t - 16]);
        }
        let [mut a, mut b, mut c, mut d, mut e, mut f, mut g, mut h] = *state;
        for t in 0..64 {
            let s1 = e.rotate_right(6) ^ e.rotate_right(11) ^ e.rotate_right(25);
            let choice = (e & f) ^ (!e & g);
            let t1 = h
                .wrapping_add(s1)
                .wrapping_add(choice)
                .wrapping_add(K[t])
                .wrapping_add(w[t]);
            let s0 = a.rotate_right(2) ^ a.rotate_right(13) ^ a.rotate_right(22);
            let majority = (a & b) ^ (a & c) ^ (b & c);
            (h, g, f, e, d, c, b, a) = (
                g,
                f,
                e,
                d.wrapping_add(t1),
                c,
                b,
                a,
                t1.wrapping_add(s0.wrapping_add(majority)),
            );
        }
        for (word, more) in state.iter_mut().zip([a, b, c, d, e, f, g, h]) {
            *word = word.wrapping_add(more);
        }
    }
}

/// Four words from the fourth-last four, the third-last, the second-last and the last.
#[target_feature(enable = "sha,ssse3,sse4.1")]
fn next_words(w: [__m128i; 4]) -> __m128i {
    let sum = _mm_add_epi32(
        _mm_sha256msg1_epu32(w[0], w[1]),
        _mm_alignr_epi8(w[3], w[2], 4),
    );
    _mm_sha256msg2_epu32(sum, w[3])
}

#[target_feature(enable = "sha,ssse3,sse4.1")]
fn compress_by_instructions(state: &mut [u32; 8], blocks: &[u8]) {
    // SAFETY: four words, or sixteen bytes, may stand at any address.
    let words = |words: &[u32; 4]| unsafe { _mm_loadu_si128(words.as_ptr().cast()) };
    let bytes = |bytes: &[u8; 16]| unsafe { _mm_loadu_si128(bytes.as_ptr().cast()) };
    let high_byte_first = _mm_set_epi64x(0x0c0d_0e0f_0809_0a0b, 0x0405_0607_0001_0203);
    // The instructions keep the state as two halves, a b e f and c d g h, their first word highest.
    let [low, high] = [0, 1].map(|half| words(&state.as_chunks().0[half]));
    let (badc, hgfe) = (_mm_shuffle_epi32(low, 0xb1), _mm_shuffle_epi32(high, 0x1b));
    let mut abef = _mm_alignr_epi8(badc, hgfe, 8);
    let mut cdgh = _mm_blend_epi16(hgfe, badc, 0xf0);
    for block in blocks.as_chunks::<BLOCK>().0 {
        let before = (abef, cdgh);
        let parts = block.as_chunks().0;
        let mut w = [0, 1, 2, 3].map(|k| _mm_shuffle_epi8(bytes(&parts[k]), high_byte_first));
        for (t, k) in K.as_chunks().0.iter().enumerate() {
            let sum = _mm_add_epi32(w[0], words(k));
            cdgh = _mm_sha256rnds2_epu32(cdgh, abef, sum);
            abef = _mm_sha256rnds2_epu32(abef, cdgh, _mm_shuffle_epi32(sum, 0x0e));
            let next = if t < 12 { next_words(w) } else { w[0] };
            w = [w[1], w[2], w[3], next];
        }
        abef = _mm_add_epi32(abef, before.0);
        cdgh = _mm_add_epi32(cdgh, before.1);
    }
    let (feba, dchg) = (_mm_shuffle_epi32(abef, 0x1b), _mm_shuffle_epi32(cdgh, 0xb1));
    let halves = [
        _mm_blend_epi16(feba, dchg, 0xf0),
        _mm_alignr_epi8(dchg, feba, 8),
    ];
    for (half, words) in halves.into_iter().zip(state.as_chunks_mut::<4>().0) {
        // SAFETY: as above.
        unsafe { _mm_storeu_si128(words.as_mut_ptr().cast(), half) }
    }
}

#[cfg(test)]
mod tests {
    use super::*;

    fn by(compress: Compress, parts: &[&[u8]]) -> String {
        let mut sha256 = Sha256::by(compress);
        parts.iter().for_each(|part| sha256.take(part));
        sha256.finish()
    }

    #[test]
    fn the_examples_of_fips_180() {
        let million = vec![b'a'; 1_000_000];
        let examples: [(&[u8], &str); 4] = [
            (
                b"",
                "e3b0c44298fc1c149afbf4c8996fb92427ae41e4649b934ca495991b7852b855",
            ),
            (
                b"abc",
                "ba7816bf8f01cfea414140de5dae2223b00361a396177a9cb410ff61f20015ad",
            ),
            (
                b"abcdbcdecdefdefgefghfghighijhijkijkljklmklmnlmnomnopnopq",
                "248d6a61d20638b8e5c026930c3e6039a33ce45964ff2167f6ecedd419db06c1",
            ),
            (
                &million,
                "cdc76e5c9914fb9281a1c7e284d73e67f1809a48a497200e046d39ccc7112cd0",
            ),
        ];
        for (bytes, hex) in examples {
            assert_eq!(by(compress, &[bytes]), hex);
            assert_eq!(by(fastest(), &[bytes]), hex);
        }
    }

    #[test]
    fn both_ways_agree_at_every_length_and_cut() {
        let bytes: Vec<u8> = (0..200u8).map(|n| n.wrapping_mul(167)).collect();
        for length in 0..=bytes.len() {
            let whole = by(compress, &[&bytes[..length]]);
            for cut in 0..=length {
                let (first, second) = bytes[..length].split_at(cut);
                assert_eq!(
                    by(fastest(), &[first, second]),
                    whole,
                    "length {length}, cut {cut}"
                );
            }
        }
    }
}
