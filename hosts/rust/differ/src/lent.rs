//! Memory lent to a call, with guards or a fence on either side.

use std::mem::{size_of, ManuallyDrop};

use crate::fence::Region;

/// How many values a guard has.
const GUARD: usize = 24;

/// What stands at the sides of a buffer.
#[derive(Clone, Copy, Debug, PartialEq, Eq)]
pub enum Sides {
    /// A guard before it and a guard behind it.
    Guards,
    /// A fence before it and a guard behind it.
    FenceBefore,
    /// A guard before it and a fence behind it.
    FenceBehind,
}

/// A buffer, and what all of it has to be after the call.
pub struct Lent<T> {
    region: ManuallyDrop<Region>,
    /// Where the memory begins, the guard before the buffer included.
    start: *mut T,
    /// How many values of guard stand before the buffer.
    before: usize,
    /// How many values are lent.
    length: usize,
    due: Vec<T>,
}

impl<T: Copy + PartialEq> Lent<T> {
    /// A buffer that holds these values, with guards of another.
    pub fn new(content: &[T], guard: T, sides: Sides) -> Lent<T> {
        let before = if sides == Sides::FenceBefore { 0 } else { GUARD };
        let behind = if sides == Sides::FenceBehind { 0 } else { GUARD };
        let mut due = Vec::with_capacity(before + content.len() + behind);
        due.resize(before, guard);
        due.extend_from_slice(content);
        due.resize(before + content.len() + behind, guard);
        let bytes = due.len() * size_of::<T>();
        let region = Region::of(bytes);
        let start: *mut T = match sides {
            Sides::FenceBehind => region.end().wrapping_sub(bytes).cast(),
            _ => region.start().cast(),
        };
        assert!(start.is_aligned());
        // SAFETY: the region has room for all values, is aligned for them, and is this buffer's alone until it is dropped.
        unsafe { start.copy_from_nonoverlapping(due.as_ptr(), due.len()) };
        Lent { region: ManuallyDrop::new(region), start, before, length: content.len(), due }
    }

    /// How many values are lent.
    pub fn len(&self) -> usize {
        self.length
    }

    /// Whether none is.
    pub fn is_empty(&self) -> bool {
        self.length == 0
    }

    /// Where the buffer begins, to read.
    pub fn start(&self) -> *const T {
        self.start.wrapping_add(self.before)
    }

    /// Where the buffer begins, to write.
    pub fn start_mut(&mut self) -> *mut T {
        self.start.wrapping_add(self.before)
    }

    /// What the buffer has to hold after the call: at first what it holds before.
    pub fn due(&mut self) -> &mut [T] {
        &mut self.due[self.before..self.before + self.length]
    }

    /// What the buffer holds.
    pub fn held(&self) -> &[T] {
        // SAFETY: so many values are lent, and any bytes are values of the types that are lent.
        unsafe { std::slice::from_raw_parts(self.start(), self.length) }
    }

    /// Where, counted from the buffer's start, the memory first is not what it has to be.
    pub fn first_wrong(&self) -> Option<isize> {
        // SAFETY: so many values were put there, and any bytes are values of the types that are lent.
        let memory = unsafe { std::slice::from_raw_parts(self.start, self.due.len()) };
        let wrong = memory.iter().zip(&self.due).position(|(is, due)| is != due)?;
        Some(wrong as isize - self.before as isize)
    }
}

impl<T> Drop for Lent<T> {
    fn drop(&mut self) {
        // SAFETY: the region is taken out once, here.
        unsafe { ManuallyDrop::take(&mut self.region) }.put_back();
    }
}
