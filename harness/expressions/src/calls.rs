//! The proved functions (crate expression_calls, calls.patch), on words. What their contracts require, that words are an expression, is met by words.rs, which
//! writes them; a result past the end of the slice means that there was no room. Columns, words of 32 bits, are given as toyDB has them.

use crate::words;

/// No room.
pub type Written = Option<usize>;

#[repr(C)]
struct Folded {
    refused: bool,
    number: u32,
    at: usize,
}

#[repr(C)]
struct Lookup {
    found: bool,
    column: u32,
}

#[repr(C)]
struct Pair {
    found: bool,
    left: u32,
    right: u32,
}

#[repr(C)]
struct References {
    left: bool,
    right: bool,
}

#[repr(C)]
struct Found {
    found: bool,
    lo: usize,
    hi: usize,
    column: u32,
}

#[repr(C)]
struct Rest {
    at: usize,
    met: bool,
}

type In = *const u32;
type Out = *mut u32;

// The Rattle functions take a slice as its pointer and its length.
unsafe extern "C" {
    fn expression_into_nnf(s: In, n: usize, lo: usize, hi: usize, d: Out, m: usize, at: usize) -> usize;
    fn expression_distribute(s: In, n: usize, lo: usize, hi: usize, d: Out, m: usize, at: usize) -> usize;
    #[allow(clippy::too_many_arguments)]
    fn expression_fold(text: *const u8, t: usize, s: In, n: usize, lo: usize, hi: usize, d: Out, m: usize, at: usize, first: usize) -> Folded;
    #[allow(clippy::too_many_arguments)]
    fn expression_replace_column(s: In, n: usize, lo: usize, hi: usize, d: Out, m: usize, at: usize, from: u32, to: u32) -> usize;
    fn expression_shift_column_down(s: In, n: usize, lo: usize, hi: usize, d: Out, m: usize, at: usize, by: usize) -> usize;
    fn expression_shift_column_up(s: In, n: usize, lo: usize, hi: usize, d: Out, m: usize, at: usize, by: usize) -> usize;
    fn expression_refers(s: In, n: usize, lo: usize, hi: usize, width: usize) -> References;
    fn expression_is_column_lookup(s: In, n: usize, lo: usize, hi: usize) -> Lookup;
    fn expression_into_column_values(s: In, n: usize, lo: usize, hi: usize, d: Out, m: usize, at: usize) -> usize;
    fn expression_equijoin(s: In, n: usize, lo: usize, hi: usize) -> Pair;
    #[allow(clippy::too_many_arguments)]
    fn expression_for_left(s: In, n: usize, lo: usize, hi: usize, d: Out, m: usize, from: usize, at: usize, width: usize) -> usize;
    #[allow(clippy::too_many_arguments)]
    fn expression_for_right(s: In, n: usize, lo: usize, hi: usize, d: Out, m: usize, from: usize, at: usize, width: usize, by: usize) -> usize;
    #[allow(clippy::too_many_arguments)]
    fn expression_for_both(s: In, n: usize, lo: usize, hi: usize, d: Out, m: usize, from: usize, at: usize, width: usize) -> usize;
    #[allow(clippy::too_many_arguments)]
    fn expression_push_left(s: In, n: usize, lo: usize, hi: usize, g: In, k: usize, a: usize, b: usize, d: Out, m: usize, at: usize, width: usize) -> usize;
    #[allow(clippy::too_many_arguments)]
    fn expression_push_right(
        s: In, n: usize, lo: usize, hi: usize, g: In, k: usize, a: usize, b: usize, d: Out, m: usize, at: usize, width: usize, by: usize,
    ) -> usize;
    fn expression_find_lookup(s: In, n: usize, lo: usize, hi: usize, key: usize, columns: *const u8, k: usize) -> Found;
    #[allow(clippy::too_many_arguments)]
    fn expression_remaining(
        s: In, n: usize, lo: usize, hi: usize, d: Out, m: usize, from: usize, at: usize, key: usize, columns: *const u8, k: usize,
    ) -> Rest;
}

fn written(end: usize, d: &[u32]) -> Written {
    (end <= d.len()).then_some(end)
}

// SAFETY, in all of these: pointers and lengths are those of live slices, the words of s are one expression from 0 to its end, and the functions are proved
// to stay within the slices then.

pub fn into_nnf(s: &[u32], d: &mut [u32], at: usize) -> Written {
    written(unsafe { expression_into_nnf(s.as_ptr(), s.len(), 0, s.len(), d.as_mut_ptr(), d.len(), at) }, d)
}

pub fn distribute(s: &[u32], d: &mut [u32], at: usize) -> Written {
    written(unsafe { expression_distribute(s.as_ptr(), s.len(), 0, s.len(), d.as_mut_ptr(), d.len(), at) }, d)
}

/// Where the words end, or the refusal's number and its cell. There must be room for as many words as the expression has.
pub fn fold(text: &[u8], s: &[u32], d: &mut [u32]) -> Result<usize, (u32, usize)> {
    assert!(s.len() <= d.len() && d.len() < 1 << 32 && text.len() < 65536);
    let r = unsafe { expression_fold(text.as_ptr(), text.len(), s.as_ptr(), s.len(), 0, s.len(), d.as_mut_ptr(), d.len(), 0, 0) };
    if r.refused { Err((r.number, r.at)) } else { Ok(r.at) }
}

pub fn replace_column(s: &[u32], d: &mut [u32], from: u32, to: u32) -> Written {
    written(unsafe { expression_replace_column(s.as_ptr(), s.len(), 0, s.len(), d.as_mut_ptr(), d.len(), 0, from, to) }, d)
}

pub fn shift_column_down(s: &[u32], d: &mut [u32], by: usize) -> Written {
    written(unsafe { expression_shift_column_down(s.as_ptr(), s.len(), 0, s.len(), d.as_mut_ptr(), d.len(), 0, by) }, d)
}

/// Columns are below 2^32, and must be so after the shift.
pub fn shift_column_up(s: &[u32], d: &mut [u32], by: usize) -> Written {
    assert!(by <= words::highest_shift(s));
    written(unsafe { expression_shift_column_up(s.as_ptr(), s.len(), 0, s.len(), d.as_mut_ptr(), d.len(), 0, by) }, d)
}

pub fn refers(s: &[u32], width: usize) -> (bool, bool) {
    let r = unsafe { expression_refers(s.as_ptr(), s.len(), 0, s.len(), width) };
    (r.left, r.right)
}

pub fn is_column_lookup(s: &[u32]) -> Option<usize> {
    let r = unsafe { expression_is_column_lookup(s.as_ptr(), s.len(), 0, s.len()) };
    r.found.then_some(r.column as usize)
}

/// Of the expression that stands from lo up to hi.
pub fn into_column_values(s: &[u32], lo: usize, hi: usize, d: &mut [u32]) -> Written {
    written(unsafe { expression_into_column_values(s.as_ptr(), s.len(), lo, hi, d.as_mut_ptr(), d.len(), 0) }, d)
}

pub fn equijoin(s: &[u32]) -> Option<(usize, usize)> {
    let r = unsafe { expression_equijoin(s.as_ptr(), s.len(), 0, s.len()) };
    r.found.then_some((r.left as usize, r.right as usize))
}

pub fn for_left(s: &[u32], d: &mut [u32], width: usize) -> Written {
    written(unsafe { expression_for_left(s.as_ptr(), s.len(), 0, s.len(), d.as_mut_ptr(), d.len(), 0, 0, width) }, d)
}

pub fn for_right(s: &[u32], d: &mut [u32], width: usize, by: usize) -> Written {
    written(unsafe { expression_for_right(s.as_ptr(), s.len(), 0, s.len(), d.as_mut_ptr(), d.len(), 0, 0, width, by) }, d)
}

pub fn for_both(s: &[u32], d: &mut [u32], width: usize) -> Written {
    written(unsafe { expression_for_both(s.as_ptr(), s.len(), 0, s.len(), d.as_mut_ptr(), d.len(), 0, 0, width) }, d)
}

/// g has the conjuncts for the right source.
pub fn push_left(s: &[u32], g: &[u32], d: &mut [u32], width: usize) -> Written {
    let end = unsafe { expression_push_left(s.as_ptr(), s.len(), 0, s.len(), g.as_ptr(), g.len(), 0, g.len(), d.as_mut_ptr(), d.len(), 0, width) };
    written(end, d)
}

/// g has the conjuncts for the left source.
pub fn push_right(s: &[u32], g: &[u32], d: &mut [u32], width: usize) -> Written {
    let end =
        unsafe { expression_push_right(s.as_ptr(), s.len(), 0, s.len(), g.as_ptr(), g.len(), 0, g.len(), d.as_mut_ptr(), d.len(), 0, width, width) };
    written(end, d)
}

/// The records of a table's columns, as a sheet has them, but for the mark of an index all 0: the functions read no more of them.
pub fn records(index: &[bool]) -> Vec<u8> {
    let mut records = vec![0; 16 * index.len()];
    for (i, &mark) in index.iter().enumerate() {
        records[16 * i + 5] = u8::from(mark);
    }
    records
}

/// Where the conjunct stands, and its column.
pub fn find_lookup(s: &[u32], key: usize, columns: &[u8]) -> Option<(usize, usize, usize)> {
    let r = unsafe { expression_find_lookup(s.as_ptr(), s.len(), 0, s.len(), key, columns.as_ptr(), columns.len()) };
    r.found.then_some((r.lo, r.hi, r.column as usize))
}

/// Where the remaining conjuncts end, and whether a lookup was met.
pub fn remaining(s: &[u32], d: &mut [u32], key: usize, columns: &[u8]) -> (Written, bool) {
    let r = unsafe { expression_remaining(s.as_ptr(), s.len(), 0, s.len(), d.as_mut_ptr(), d.len(), 0, 0, key, columns.as_ptr(), columns.len()) };
    (written(r.at, d), r.met)
}
