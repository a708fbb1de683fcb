//! Memory lent to a call, with guards before and behind it, so that a write outside is seen.

/// The shortest guard. Longer ones let a slice of bytes begin at any address.
const GUARD: usize = 8;

#[derive(Clone, PartialEq, Eq, Debug)]
pub struct Lent<T> {
    memory: Vec<T>,
    guard: usize,
    len: usize,
}

impl<T: Copy> Lent<T> {
    /// Nothing is lent, and there is no memory.
    pub const NONE: Lent<T> = Lent {
        memory: Vec::new(),
        guard: 0,
        len: 0,
    };

    /// The guards are longer by the rest that the shift leaves.
    pub fn new(len: usize, filler: T, shift: usize) -> Lent<T> {
        let guard = GUARD + shift % GUARD;
        Lent {
            memory: vec![filler; len + 2 * guard],
            guard,
            len,
        }
    }

    pub fn is_lent(&self) -> bool {
        !self.memory.is_empty()
    }

    pub fn slice(&self) -> &[T] {
        self.memory
            .get(self.guard..self.guard + self.len)
            .unwrap_or_default()
    }

    pub fn slice_mut(&mut self) -> &mut [T] {
        self.memory
            .get_mut(self.guard..self.guard + self.len)
            .unwrap_or_default()
    }

    /// As much of the contents as there is room for.
    pub fn put(&mut self, contents: &[T]) {
        let len = contents.len().min(self.len);
        self.slice_mut()[..len].copy_from_slice(&contents[..len]);
    }

    /// Another length; what was there stays as far as it fits.
    pub fn resize(&mut self, len: usize, filler: T) {
        let mut other = Lent::new(len, filler, self.guard);
        other.put(self.slice());
        *self = other;
    }

    /// All memory, guards too, as in another of the same length.
    pub fn restore(&mut self, from: &Lent<T>) {
        self.memory.copy_from_slice(&from.memory);
    }

    /// The memory before the slice, the slice, and the memory behind it.
    pub fn parts(&self) -> [&[T]; 3] {
        let (before, rest) = self.memory.split_at(self.guard);
        let (slice, behind) = rest.split_at(self.len);
        [before, slice, behind]
    }
}
