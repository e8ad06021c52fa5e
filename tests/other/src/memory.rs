//! What a call is lent, each between two pages that nobody may touch: texts that can only
//! be read, and memory of which every change is seen.

use crate::pages::Region;
use std::ops::Deref;

/// Where in its pages something lies: at their very start, so that the byte before it is out
/// of reach, or at their very end, so that the byte after it is.
#[derive(Clone, Copy, Debug, PartialEq, Eq)]
pub enum Edge {
    Start,
    End,
}

pub const EDGES: [Edge; 2] = [Edge::Start, Edge::End];

/// The pages for these elements, which are put there, and the offset of the first.
fn laid<T: Copy>(elements: &[T], edge: Edge, around: u8) -> (Region, usize) {
    let bytes = std::mem::size_of_val(elements);
    let region = Region::of(bytes);
    let offset = match edge {
        Edge::Start => 0,
        Edge::End => region.open() - bytes,
    };
    // The pages are open for writing and nobody else has them; a page's end is aligned for every element.
    unsafe {
        std::ptr::write_bytes(region.start(), around, region.open());
        std::ptr::copy_nonoverlapping(elements.as_ptr(), region.start().add(offset).cast(), elements.len());
    }
    (region, offset)
}

/// A text, or a tally, that can only be read.
#[derive(Debug)]
pub struct ReadOnly<T = u8> {
    region: Region,
    first: *const T,
    length: usize,
}

impl<T: Copy> ReadOnly<T> {
    pub fn new(elements: &[T], edge: Edge) -> ReadOnly<T> {
        let (mut region, offset) = laid(elements, edge, b' ');
        region.close();
        let first = region.start().wrapping_add(offset).cast_const().cast();
        ReadOnly { region, first, length: elements.len() }
    }
}

impl<T> Deref for ReadOnly<T> {
    type Target = [T];

    fn deref(&self) -> &[T] {
        // So many elements were laid there.
        unsafe { std::slice::from_raw_parts(self.first, self.length) }
    }
}

impl<T> Drop for ReadOnly<T> {
    fn drop(&mut self) {
        self.region.give_back();
    }
}

/// Memory that is lent to be written, with what it held before.
#[derive(Debug)]
pub struct Memory<T> {
    region: Region,
    first: *mut T,
    before: Vec<T>,
}

/// What the rest of its pages holds.
const AROUND: u8 = 0xa5;

impl<T: Copy + PartialEq> Memory<T> {
    pub fn new(before: Vec<T>, edge: Edge) -> Memory<T> {
        let (region, offset) = laid(&before, edge, AROUND);
        let first = region.start().wrapping_add(offset).cast();
        Memory { region, first, before }
    }

    pub fn lent(&mut self) -> &mut [T] {
        // So many elements were laid there, and the borrow is the only one.
        unsafe { std::slice::from_raw_parts_mut(self.first, self.before.len()) }
    }

    /// What it holds.
    pub fn after(&self) -> &[T] {
        // As above.
        unsafe { std::slice::from_raw_parts(self.first, self.before.len()) }
    }

    /// The first place that isn't as it was, after `wanted` was laid at the
    /// front of what it was; the place counts from the lent part's start.
    pub fn first_change(&self, wanted: &[T]) -> Option<isize> {
        let (front, rest) = self.after().split_at(wanted.len());
        let at = if front != wanted {
            front.iter().zip(wanted).position(|(one, other)| one != other)
        } else if rest != &self.before[wanted.len()..] {
            let differs = rest.iter().zip(&self.before[wanted.len()..]).position(|(one, other)| one != other);
            differs.map(|at| wanted.len() + at)
        } else {
            None
        };
        at.map(|at| at as isize).or_else(|| self.change_around())
    }

    /// The same of the rest of the pages.
    fn change_around(&self) -> Option<isize> {
        let (start, open) = (self.region.start(), self.region.open());
        // The open pages can be read.
        let all = unsafe { std::slice::from_raw_parts(start, open) };
        let size = std::mem::size_of::<T>();
        let first = self.first as usize - start as usize;
        let is_lent = |at: usize| (first..first + size * self.before.len()).contains(&at);
        let around = all[..first].iter().chain(&all[first + size * self.before.len()..]);
        if around.clone().all(|&byte| byte == AROUND) {
            return None;
        }
        let at = (0..open).find(|&at| !is_lent(at) && all[at] != AROUND)?;
        Some((at as isize - first as isize).div_euclid(size as isize))
    }
}

impl<T> Drop for Memory<T> {
    fn drop(&mut self) {
        self.region.give_back();
    }
}
