//! Memory lent to a call.

/// A copy of what is lent, between two items that are not lent.
pub struct Lent<T> {
    items: Vec<T>,
    guard: T,
}

impl<T: Copy + PartialEq> Lent<T> {
    pub fn new(lent: &[T], guard: T) -> Self {
        let mut items = Vec::with_capacity(lent.len() + 2);
        items.push(guard);
        items.extend_from_slice(lent);
        items.push(guard);
        Lent { items, guard }
    }

    pub fn pointer(&mut self) -> *mut T {
        self.items[1..].as_mut_ptr()
    }

    /// What a call left in the memory.
    pub fn left(&self) -> &[T] {
        &self.items[1..self.items.len() - 1]
    }

    /// Whether the items on either side are as they were.
    pub fn guarded(&self) -> bool {
        self.items.first() == Some(&self.guard) && self.items.last() == Some(&self.guard)
    }
}
