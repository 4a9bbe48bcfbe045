//! A buffer that lies in the middle of a longer one and knows, bit for bit, what all of it held.

/// Elements before and after the lent part.
pub const BESIDE: usize = 24;

/// Elements that are compared by their bits, so that numbers that are no number compare too.
pub trait Bits: Copy {
    fn bits(self) -> u64;
}

impl Bits for u8 {
    fn bits(self) -> u64 {
        self.into()
    }
}

impl Bits for u32 {
    fn bits(self) -> u64 {
        self.into()
    }
}

impl Bits for i32 {
    fn bits(self) -> u64 {
        self as u64
    }
}

impl Bits for f64 {
    fn bits(self) -> u64 {
        self.to_bits()
    }
}

/// A buffer that knows what it held.
pub struct Buffer<T> {
    all: Vec<T>,
    before: Vec<T>,
}

impl<T: Bits> Buffer<T> {
    pub fn new(len: usize, mut pattern: impl FnMut() -> T) -> Buffer<T> {
        let before: Vec<T> = (0..len + 2 * BESIDE).map(|_| pattern()).collect();
        Buffer {
            all: before.clone(),
            before,
        }
    }

    pub fn lent(&mut self) -> &mut [T] {
        let end = self.all.len() - BESIDE;
        &mut self.all[BESIDE..end]
    }

    pub fn unchanged(&self) -> bool {
        same(&self.all, &self.before)
    }

    pub fn unchanged_beside(&self) -> bool {
        let end = self.all.len() - BESIDE;
        same(&self.all[..BESIDE], &self.before[..BESIDE])
            && same(&self.all[end..], &self.before[end..])
    }
}

fn same<T: Bits>(one: &[T], other: &[T]) -> bool {
    let bits = |elements: &[T]| elements.iter().map(|x| x.bits()).collect::<Vec<u64>>();
    one.len() == other.len() && bits(one) == bits(other)
}
