//! Compresses bytes to a zlib stream (RFC 1950, RFC 1951), fast rather than as small as can be.
//!
//! Stretches that came up before are replaced by their length and distance, of which only the last
//! place with the same first bytes is tried. What remains is written in blocks, each with Huffman
//! codes of its own. The same bytes give the same stream on every machine.

use std::cmp::Reverse;
use std::collections::BinaryHeap;

/// Adler-32 of the bytes, with which a zlib stream ends.
pub(crate) fn adler32(bytes: &[u8]) -> u32 {
    let (mut a, mut b) = (1u32, 0u32);
    // So many bytes that neither sum outgrows 32 bits.
    for part in bytes.chunks(5552) {
        for &byte in part {
            a += u32::from(byte);
            b += a;
        }
        a %= 65521;
        b %= 65521;
    }
    b << 16 | a
}

/// A byte, or a stretch that is repeated.
#[derive(Clone, Copy)]
enum Token {
    Byte(u8),
    /// Its length less 3, and its distance less 1.
    Again(u8, u16),
}

/// The shortest stretch that is replaced. In photographs shorter ones come up by chance, and their
/// length and distance take more bits than their bytes.
const SHORTEST: usize = 6;

/// The longest stretch. The format's own limit is 258, which has a code of its own; 257 saves that
/// case.
const LONGEST: usize = 257;

/// The furthest that a stretch may lie back.
const FURTHEST: usize = 32_768;

/// The bytes as tokens.
fn tokens(bytes: &[u8]) -> impl Iterator<Item = Token> + '_ {
    const BITS: u32 = 15;
    // For each hash of four bytes the place after the last one that had it; 0 for none.
    let mut last = vec![0usize; 1 << BITS];
    let mut at = 0;
    std::iter::from_fn(move || {
        let rest = bytes.get(at..).filter(|rest| !rest.is_empty())?;
        let mut token = (Token::Byte(rest[0]), 1);
        if let Some(four) = rest.first_chunk::<4>() {
            let hash = u32::from_le_bytes(*four).wrapping_mul(0x9e37_79b1) >> (32 - BITS);
            let before = std::mem::replace(&mut last[hash as usize], at + 1);
            let distance = at + 1 - before;
            if before > 0 && distance <= FURTHEST {
                let length = alike(&bytes[before - 1..], rest);
                if length >= SHORTEST {
                    let again = Token::Again((length - 3) as u8, (distance - 1) as u16);
                    token = (again, length);
                }
            }
        }
        at += token.1;
        Some(token.0)
    })
}

/// How many first bytes of two stretches are the same, at most the longest length.
fn alike(a: &[u8], b: &[u8]) -> usize {
    let pairs = a.iter().zip(b).take(LONGEST);
    pairs.take_while(|(x, y)| x == y).count()
}

/// A number as its class, the count of bits that tell it from the others of its class, and these.
/// Classes of `1 << keep` each need a bit more than those before.
fn classed(n: u32, keep: u32) -> (usize, u32, u32) {
    if n < 2 << keep {
        return (n as usize, 0, 0);
    }
    let extra = n.ilog2() - keep;
    let class = (extra << keep) + (n >> extra);
    (class as usize, extra, n & ((1 << extra) - 1))
}

/// Bits, the lowest of a byte first.
#[derive(Default)]
struct Bits {
    out: Vec<u8>,
    pending: u64,
    count: u32,
}

impl Bits {
    /// Adds the lowest bits of a number, at most 16.
    fn add(&mut self, number: u32, bits: u32) {
        self.pending |= u64::from(number) << self.count;
        self.count += bits;
        if self.count >= 32 {
            self.out.extend((self.pending as u32).to_le_bytes());
            self.pending >>= 32;
            self.count -= 32;
        }
    }

    /// Fills the last byte.
    fn end(mut self) -> Vec<u8> {
        let bytes = self.count.div_ceil(8) as usize;
        self.out.extend(&self.pending.to_le_bytes()[..bytes]);
        self.out
    }
}

/// How many bits each symbol gets in the Huffman code for these counts; 0 where it does not occur.
fn huffman(counts: &[u32]) -> Vec<u8> {
    let mut heap: BinaryHeap<_> = (0..)
        .zip(counts)
        .filter(|(_, &count)| count > 0)
        .map(|(symbol, &count)| Reverse((count, symbol)))
        .collect();
    // The nodes above the symbols, each numbered after its two children.
    let mut parents = vec![0; 2 * counts.len()];
    let mut next = counts.len();
    while let (Some(Reverse(a)), Some(Reverse(b))) = (heap.pop(), heap.pop()) {
        (parents[a.1], parents[b.1]) = (next, next);
        heap.push(Reverse((a.0 + b.0, next)));
        next += 1;
    }
    let mut depths = vec![0u8; 2 * counts.len()];
    for node in (0..next.saturating_sub(1)).rev() {
        if parents[node] > 0 {
            depths[node] = depths[parents[node]].saturating_add(1);
        }
    }
    depths.truncate(counts.len());
    depths
}

/// A code: for each symbol its bits, the first lowest, and how many they are.
struct Code(Vec<(u32, u32)>);

impl Code {
    /// The code for these counts, in which no symbol has more than `most` bits.
    fn new(counts: &[u32], most: u8) -> Code {
        let mut counts = counts.to_vec();
        // A code needs two symbols.
        counts[..2]
            .iter_mut()
            .for_each(|count| *count = (*count).max(1));
        let mut lengths = huffman(&counts);
        while lengths.iter().any(|&length| length > most) {
            // Counts that differ less give a flatter code.
            counts
                .iter_mut()
                .for_each(|count| *count = count.div_ceil(2));
            lengths = huffman(&counts);
        }
        let mut next = 0u32;
        let mut code = vec![(0, 0); counts.len()];
        for length in 1..=u32::from(most) {
            for (own, _) in code
                .iter_mut()
                .zip(&lengths)
                .filter(|(_, &l)| u32::from(l) == length)
            {
                *own = (next.reverse_bits() >> (32 - length), length);
                next += 1;
            }
            next <<= 1;
        }
        Code(code)
    }

    fn write(&self, bits: &mut Bits, symbol: usize) {
        let (code, length) = self.0[symbol];
        bits.add(code, length);
    }
}

/// The symbol that ends a block; those from the next on are lengths.
const END: usize = 256;

/// How many tokens a block has.
const BLOCK: usize = 1 << 16;

/// Writes a block with codes of its own.
fn block(bits: &mut Bits, tokens: &[Token], last: bool) {
    let (mut firsts, mut distances) = ([0; 286], [0; 30]);
    firsts[END] = 1;
    for token in tokens {
        match *token {
            Token::Byte(byte) => firsts[usize::from(byte)] += 1,
            Token::Again(length, distance) => {
                firsts[END + 1 + classed(length.into(), 2).0] += 1;
                distances[classed(distance.into(), 1).0] += 1;
            }
        }
    }
    let (firsts, distances) = (Code::new(&firsts, 15), Code::new(&distances, 15));
    bits.add(u32::from(last), 1);
    codes(bits, &firsts, &distances);
    for token in tokens {
        match *token {
            Token::Byte(byte) => firsts.write(bits, byte.into()),
            Token::Again(length, distance) => {
                let (class, extra, rest) = classed(length.into(), 2);
                firsts.write(bits, END + 1 + class);
                bits.add(rest, extra);
                let (class, extra, rest) = classed(distance.into(), 1);
                distances.write(bits, class);
                bits.add(rest, extra);
            }
        }
    }
    firsts.write(bits, END);
}

/// Writes the lengths of two codes, in a code that is written before them.
fn codes(bits: &mut Bits, firsts: &Code, distances: &Code) {
    /// The order in which the format asks for the lengths of the code of lengths.
    const ORDER: [usize; 19] = [
        16, 17, 18, 0, 8, 7, 9, 6, 10, 5, 11, 4, 12, 3, 13, 2, 14, 1, 15,
    ];
    let lengths = || {
        firsts
            .0
            .iter()
            .chain(&distances.0)
            .map(|own| own.1 as usize)
    };
    let mut counts = [0; 19];
    lengths().for_each(|length| counts[length] += 1);
    let code = Code::new(&counts, 7);
    // A block with codes of its own; 286 symbols, 30 distances and all 19 lengths.
    bits.add(2, 2);
    bits.add(286 - 257, 5);
    bits.add(30 - 1, 5);
    bits.add(19 - 4, 4);
    ORDER
        .iter()
        .for_each(|&symbol| bits.add(code.0[symbol].1, 3));
    lengths().for_each(|length| code.write(bits, length));
}

/// The bytes as a zlib stream.
pub(crate) fn zlib(bytes: &[u8]) -> Vec<u8> {
    let mut bits = Bits::default();
    // Deflate with a window of 32 KiB; the second byte makes the two a multiple of 31.
    bits.add(0x78, 8);
    bits.add(0x01, 8);
    let mut tokens = tokens(bytes).peekable();
    let mut held = Vec::with_capacity(BLOCK);
    loop {
        held.clear();
        held.extend(tokens.by_ref().take(BLOCK));
        let last = tokens.peek().is_none();
        block(&mut bits, &held, last);
        if last {
            break;
        }
    }
    let mut out = bits.end();
    out.extend(adler32(bytes).to_be_bytes());
    out
}

/// Takes zlib streams apart again, for the tests.
#[cfg(test)]
pub(crate) mod inflate {
    /// The bits of a stream, the lowest of a byte first.
    struct Bits<'a>(&'a [u8], usize);

    impl Bits<'_> {
        fn take(&mut self, count: u32) -> usize {
            let bit = |at: usize| usize::from(self.0[at / 8] >> (at % 8) & 1);
            let bits = (0..count as usize).map(|i| bit(self.1 + i) << i).sum();
            self.1 += count as usize;
            bits
        }

        /// A symbol of the code that has these lengths.
        fn symbol(&mut self, lengths: &[usize]) -> usize {
            let (mut code, mut first) = (0, 0);
            for length in 1..16 {
                code = code << 1 | self.take(1);
                let own = || lengths.iter().enumerate().filter(|(_, &l)| l == length);
                let count = own().count();
                if code < first + count {
                    return own().nth(code - first).unwrap().0;
                }
                first = (first + count) << 1;
            }
            panic!("no symbol has these bits");
        }
    }

    /// The numbers of a class, as the format's tables say it: first one, and bits for the rest.
    fn class(bits: &mut Bits, class: usize, keep: u32) -> usize {
        let (mut first, mut extra) = (0, 0);
        for at in 0..class {
            extra = (at as u32 >> keep).saturating_sub(1);
            first += 1 << extra;
        }
        extra = extra.max((class as u32 >> keep).saturating_sub(1));
        first + bits.take(extra)
    }

    /// The bytes of a stream, all of whose blocks have codes of their own, and their sum.
    pub fn zlib(stream: &[u8]) -> (Vec<u8>, u32) {
        assert_eq!(stream[..2], [0x78, 0x01]);
        let (mut bits, mut out) = (Bits(stream, 16), Vec::new());
        loop {
            let last = bits.take(1);
            assert_eq!(bits.take(2), 2);
            let counts = (bits.take(5) + 257, bits.take(5) + 1, bits.take(4) + 4);
            let mut own = [0; 19];
            for at in &[
                16, 17, 18, 0, 8, 7, 9, 6, 10, 5, 11, 4, 12, 3, 13, 2, 14, 1, 15,
            ][..counts.2]
            {
                own[*at] = bits.take(3);
            }
            let all = counts.0 + counts.1;
            let lengths: Vec<usize> = (0..all).map(|_| bits.symbol(&own)).collect();
            let (firsts, distances) = lengths.split_at(counts.0);
            loop {
                match bits.symbol(firsts) {
                    byte @ 0..=255 => out.push(byte as u8),
                    256 => break,
                    length => {
                        let length = 3 + class(&mut bits, length - 257, 2);
                        let symbol = bits.symbol(distances);
                        let from = out.len() - 1 - class(&mut bits, symbol, 1);
                        (from..from + length).for_each(|at| out.push(out[at]));
                    }
                }
            }
            if last == 1 {
                break;
            }
        }
        let end = &stream[bits.1.div_ceil(8)..];
        (out, u32::from_be_bytes(end.try_into().unwrap()))
    }
}

#[cfg(test)]
mod tests {
    use super::*;

    #[test]
    fn known_sums() {
        assert_eq!(adler32(b"Wikipedia"), 0x11e6_0398);
        assert_eq!(adler32(&[255; 1_000_000]), {
            let (a, b) = (0..1_000_000).fold((1u64, 0u64), |(a, b), _| {
                ((a + 255) % 65521, (b + a + 255) % 65521)
            });
            (b << 16 | a) as u32
        });
    }

    /// Nothing, single bytes, runs of every length, noise of every kind, and bytes that come back
    /// from near and far are the same after they were taken apart.
    #[test]
    fn there_and_back() {
        let mut state = 1u64;
        let mut random = |n: u64| {
            state = state
                .wrapping_mul(6364136223846793005)
                .wrapping_add(1442695040888963407);
            (state >> 33) % n
        };
        let mut cases = vec![vec![], vec![7], vec![0; 100_000]];
        cases.push((1..300).flat_map(|n| vec![n as u8; n]).collect());
        for values in [2, 3, 17, 256] {
            cases.push((0..80_000).map(|_| random(values) as u8).collect());
        }
        let noise: Vec<u8> = (0..33_000).map(|_| random(256) as u8).collect();
        for back in [6, 257, 258, 32_767, 32_768, 32_769] {
            cases.push([&noise[..back], &noise[..back]].concat());
        }
        // Counts that double from symbol to symbol ask for more than 15 bits.
        cases.push((0..20u8).flat_map(|n| vec![n; 1 << n.min(17)]).collect());
        let mut mixed = cases.last().unwrap().clone();
        (1..mixed.len()).for_each(|at| mixed.swap(at, random(at as u64 + 1) as usize));
        cases.push(mixed);
        for (at, case) in cases.iter().enumerate() {
            let (back, sum) = inflate::zlib(&zlib(case));
            assert!(back == *case, "case {at}");
            assert_eq!(sum, adler32(case), "case {at}");
        }
    }

    /// Runs and repetitions become short, and noise does not grow by more than its codes.
    #[test]
    fn smaller() {
        let mut state = 1u32;
        let random = || {
            state = state.wrapping_mul(1664525).wrapping_add(1013904223);
            (state >> 24) as u8
        };
        let noise: Vec<u8> = std::iter::repeat_with(random).take(1_000_000).collect();
        assert!(zlib(&noise).len() < 1_010_000);
        assert!(zlib(&noise[..1000].repeat(1000)).len() < 20_000);
        assert!(zlib(&[0; 1_000_000]).len() < 10_000);
    }
}
