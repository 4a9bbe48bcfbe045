//! SHA-256 (FIPS 180-4), so that filed files can be checked by any tool that knows it.

use std::fmt::Write as _;
use std::io::{self, Read};

/// The first 32 bits of the fractional parts of the cube roots of the first 64 primes.
const ROUND: [u32; 64] = [
    0x428a2f98, 0x71374491, 0xb5c0fbcf, 0xe9b5dba5, 0x3956c25b, 0x59f111f1, 0x923f82a4, 0xab1c5ed5,
    0xd807aa98, 0x12835b01, 0x243185be, 0x550c7dc3, 0x72be5d74, 0x80deb1fe, 0x9bdc06a7, 0xc19bf174,
    0xe49b69c1, 0xefbe4786, 0x0fc19dc6, 0x240ca1cc, 0x2de92c6f, 0x4a7484aa, 0x5cb0a9dc, 0x76f988da,
    0x983e5152, 0xa831c66d, 0xb00327c8, 0xbf597fc7, 0xc6e00bf3, 0xd5a79147, 0x06ca6351, 0x14292967,
    0x27b70a85, 0x2e1b2138, 0x4d2c6dfc, 0x53380d13, 0x650a7354, 0x766a0abb, 0x81c2c92e, 0x92722c85,
    0xa2bfe8a1, 0xa81a664b, 0xc24b8b70, 0xc76c51a3, 0xd192e819, 0xd6990624, 0xf40e3585, 0x106aa070,
    0x19a4c116, 0x1e376c08, 0x2748774c, 0x34b0bcb5, 0x391c0cb3, 0x4ed8aa4a, 0x5b9cca4f, 0x682e6ff3,
    0x748f82ee, 0x78a5636f, 0x84c87814, 0x8cc70208, 0x90befffa, 0xa4506ceb, 0xbef9a3f7, 0xc67178f2,
];

/// A sum of bytes that are given in pieces.
#[derive(Clone, Debug)]
pub struct Sha256 {
    state: [u32; 8],
    /// The bytes that do not fill a block yet.
    rest: Vec<u8>,
    length: u64,
}

impl Default for Sha256 {
    /// The sum of no bytes yet.
    fn default() -> Sha256 {
        Sha256 {
            // Of the square roots of the first 8 primes.
            state: [
                0x6a09e667, 0xbb67ae85, 0x3c6ef372, 0xa54ff53a, 0x510e527f, 0x9b05688c, 0x1f83d9ab,
                0x5be0cd19,
            ],
            rest: Vec::with_capacity(64),
            length: 0,
        }
    }
}

impl Sha256 {
    /// Adds bytes.
    pub fn add(&mut self, mut bytes: &[u8]) {
        self.length += bytes.len() as u64;
        if !self.rest.is_empty() {
            let (filling, after) = bytes.split_at(bytes.len().min(64 - self.rest.len()));
            self.rest.extend_from_slice(filling);
            bytes = after;
            if self.rest.len() == 64 {
                block(&mut self.state, &self.rest);
                self.rest.clear();
            }
        }
        let mut blocks = bytes.chunks_exact(64);
        for each in &mut blocks {
            block(&mut self.state, each);
        }
        self.rest.extend_from_slice(blocks.remainder());
    }

    /// The sum as 64 hexadecimal digits in lower case, as `sha256sum` writes it.
    pub fn hex(&self) -> String {
        let mut last = self.clone();
        let bits = self.length * 8;
        last.add(&[0x80]);
        let zeros = (64 + 56 - last.rest.len()) % 64;
        last.add(&[0; 64][..zeros]);
        last.add(&bits.to_be_bytes());
        last.state.iter().fold(String::new(), |mut text, word| {
            let _ = write!(text, "{word:08x}");
            text
        })
    }
}

/// Takes one block of 64 bytes into the state.
fn block(state: &mut [u32; 8], bytes: &[u8]) {
    let mut w = [0u32; 64];
    for (word, four) in w.iter_mut().zip(bytes.chunks_exact(4)) {
        *word = u32::from_be_bytes([four[0], four[1], four[2], four[3]]);
    }
    for i in 16..64 {
        let (a, b) = (w[i - 15], w[i - 2]);
        let s0 = a.rotate_right(7) ^ a.rotate_right(18) ^ (a >> 3);
        let s1 = b.rotate_right(17) ^ b.rotate_right(19) ^ (b >> 10);
        w[i] = s1
            .wrapping_add(w[i - 7])
            .wrapping_add(s0)
            .wrapping_add(w[i - 16]);
    }
    let [mut a, mut b, mut c, mut d, mut e, mut f, mut g, mut h] = *state;
    for (&word, &k) in w.iter().zip(&ROUND) {
        let s1 = e.rotate_right(6) ^ e.rotate_right(11) ^ e.rotate_right(25);
        let choice = (e & f) ^ (!e & g);
        let first = h
            .wrapping_add(s1)
            .wrapping_add(choice)
            .wrapping_add(k)
            .wrapping_add(word);
        let s0 = a.rotate_right(2) ^ a.rotate_right(13) ^ a.rotate_right(22);
        let majority = (a & b) ^ (a & c) ^ (b & c);
        (h, g, f, e) = (g, f, e, d.wrapping_add(first));
        (d, c, b, a) = (c, b, a, first.wrapping_add(s0).wrapping_add(majority));
    }
    for (old, new) in state.iter_mut().zip([a, b, c, d, e, f, g, h]) {
        *old = old.wrapping_add(new);
    }
}

/// The sum of bytes, as 64 hexadecimal digits.
///
/// ```
/// let sum = stand::sha256::of(b"abc");
/// assert_eq!(sum, "ba7816bf8f01cfea414140de5dae2223b00361a396177a9cb410ff61f20015ad");
/// ```
pub fn of(bytes: &[u8]) -> String {
    let mut sum = Sha256::default();
    sum.add(bytes);
    sum.hex()
}

/// A reader that sums what is read through it.
#[derive(Debug)]
pub struct Summed<R> {
    input: R,
    /// The sum of what was read so far.
    pub sum: Sha256,
}

impl<R> Summed<R> {
    /// Sums what will be read from `input`.
    pub fn new(input: R) -> Summed<R> {
        Summed {
            input,
            sum: Sha256::default(),
        }
    }
}

impl<R: Read> Read for Summed<R> {
    fn read(&mut self, buffer: &mut [u8]) -> io::Result<usize> {
        let count = self.input.read(buffer)?;
        self.sum.add(&buffer[..count]);
        Ok(count)
    }
}

#[cfg(test)]
mod tests {
    use super::*;

    /// Sums that the standard and its public examples give.
    #[test]
    fn known_sums() {
        let two_blocks = b"abcdbcdecdefdefgefghfghighijhijkijkljklmklmnlmnomnopnopq";
        let million = vec![b'a'; 1_000_000];
        for (bytes, sum) in [
            (
                &b""[..],
                "e3b0c44298fc1c149afbf4c8996fb92427ae41e4649b934ca495991b7852b855",
            ),
            (
                two_blocks,
                "248d6a61d20638b8e5c026930c3e6039a33ce45964ff2167f6ecedd419db06c1",
            ),
            (
                &million,
                "cdc76e5c9914fb9281a1c7e284d73e67f1809a48a497200e046d39ccc7112cd0",
            ),
        ] {
            assert_eq!(of(bytes), sum);
        }
    }

    /// Every way to give 200 bytes in two pieces gives one sum.
    #[test]
    fn pieces() {
        let bytes: Vec<u8> = (0..200).collect();
        let whole = of(&bytes);
        for at in 0..=200 {
            let mut sum = Sha256::default();
            sum.add(&bytes[..at]);
            sum.add(&bytes[at..]);
            assert_eq!(sum.hex(), whole, "after {at} bytes");
        }
        let mut read = Vec::new();
        let mut summed = Summed::new(&bytes[..]);
        summed.read_to_end(&mut read).unwrap();
        assert_eq!((read, summed.sum.hex()), (bytes, whole));
    }
}
