//! Damaged copies of accepted sheets, by seed: single bits and bytes, words at
//! their boundaries, parts cut, grown, swapped or moved with and without their
//! trailer, limits crossed by one. Some stay acceptable; the checker says.

use crate::rng::Rng;
use crate::tree::{RECORD, TRAILER, word};

/// A sheet in its parts, so that a change can keep the trailer consistent.
#[derive(Clone)]
struct Parts {
    text: Vec<u8>,
    tables: Vec<[u8; RECORD]>,
    columns: Vec<[u8; RECORD]>,
    cells: Vec<[u8; RECORD]>,
    edition: usize,
}

impl Parts {
    fn split(bytes: &[u8]) -> Parts {
        let end = bytes.len() - TRAILER;
        let (t, c, l) = (
            word(bytes, end) as usize,
            word(bytes, end + 4) as usize,
            word(bytes, end + 8) as usize,
        );
        let records = |part: &[u8]| part.chunks(RECORD).map(|r| r.try_into().unwrap()).collect();
        Parts {
            text: bytes[..t].to_vec(),
            tables: records(&bytes[t..c]),
            columns: records(&bytes[c..l]),
            cells: records(&bytes[l..end]),
            edition: word(bytes, end + 12) as usize,
        }
    }

    fn join(&self) -> Vec<u8> {
        let mut out = self.text.clone();
        let t = out.len();
        self.tables.iter().for_each(|r| out.extend(r));
        let c = out.len();
        self.columns.iter().for_each(|r| out.extend(r));
        let l = out.len();
        self.cells.iter().for_each(|r| out.extend(r));
        let total = out.len() + TRAILER;
        [t, c, l, self.edition, total].iter().for_each(|&w| out.extend((w as u32).to_le_bytes()));
        out
    }
}

/// Damages an accepted sheet, mostly once.
pub fn damage(rng: &mut Rng, bytes: &[u8]) -> Vec<u8> {
    let mut parts = Parts::split(bytes);
    // Changes to the parts keep a trailer that fits.
    let mut out = match rng.below(10) {
        0..=7 => {
            for _ in 0..rng.pick(&[1, 1, 1, 2, 3]) {
                if !parts.cells.is_empty() {
                    change_part(rng, &mut parts);
                }
            }
            parts.join()
        }
        _ => bytes.to_vec(),
    };
    if out == bytes || rng.percent(10) {
        change_bytes(rng, &mut out);
    }
    out
}

/// A word that stands at some boundary.
fn edge(rng: &mut Rng, old: u32) -> u32 {
    let near = [old.wrapping_add(1), old.wrapping_sub(1), old ^ 1 << 16, old.wrapping_mul(2)];
    let far = [0, 1, 2, 3, 4, 16, 255, 256, 257, 65_535, 65_536, 1 << 31, u32::MAX];
    match rng.below(5) {
        0 | 1 => rng.pick(&near),
        2 | 3 => rng.pick(&far),
        _ => rng.next() as u32,
    }
}

fn set_word(record: &mut [u8], at: usize, w: u32) {
    record[at..at + 4].copy_from_slice(&w.to_le_bytes());
}

fn change_part(rng: &mut Rng, parts: &mut Parts) {
    let cells = parts.cells.len();
    let any = rng.below(cells);
    // A cell of a wanted tag, if there is one.
    let tagged = |rng: &mut Rng, parts: &Parts, tags: &[u8]| {
        let at: Vec<usize> =
            (0..parts.cells.len()).filter(|&i| tags.contains(&parts.cells[i][0])).collect();
        if at.is_empty() { any } else { rng.pick(&at) }
    };
    match rng.below(28) {
        0 | 1 => {
            let at = rng.pick(&[4, 8, 12]);
            let old = word(&parts.cells[any], at);
            let new = edge(rng, old);
            set_word(&mut parts.cells[any], at, new);
        }
        2 => {
            // A tag: any, or a known one.
            let known: Vec<u8> =
                (1..=6).chain(10..=21).chain(30..=36).chain(40..=45).chain(50..=63).collect();
            parts.cells[any][0] = if rng.percent(30) { rng.next() as u8 } else { rng.pick(&known) };
        }
        27 => parts.cells[any][0] = rng.pick(&[19, 20, 21, 35]),
        3 => parts.cells[any][1] = rng.pick(&[0, 1, 2, 3, 4, 5, 255]),
        4 => parts.cells[any][rng.range(2, 3)] = rng.range(1, 255) as u8,
        5 => {
            let other = rng.below(cells);
            parts.cells.swap(any, other);
        }
        6 => {
            let copy = parts.cells[any];
            parts.cells.insert(any, copy);
        }
        7 => {
            parts.cells.remove(any);
        }
        8 | 9 | 24 | 25 => {
            // A Column at and past its width.
            let i = tagged(rng, parts, &[6]);
            let old = word(&parts.cells[i], 4);
            let new = rng.pick(&[
                old.wrapping_add(1),
                old.wrapping_add(2),
                old.wrapping_sub(1),
                255,
                256,
                u32::MAX,
            ]);
            set_word(&mut parts.cells[i], 4, new);
        }
        10 | 11 | 26 => {
            // A Target: made equal to another, or out of range.
            let targets: Vec<usize> = (0..cells).filter(|&i| parts.cells[i][0] == 43).collect();
            if targets.len() > 1 {
                let (from, to) = (rng.pick(&targets), rng.pick(&targets));
                parts.cells[to] = parts.cells[from];
            } else {
                let i = tagged(rng, parts, &[43, 61]);
                let new = edge(rng, 255);
                set_word(&mut parts.cells[i], 4, new);
            }
        }
        12 => {
            // Join and lookup columns, and counts of Rows and Values.
            let i = tagged(rng, parts, &[45, 52, 53, 61, 63]);
            let at = rng.pick(&[4, 8, 12]);
            let old = word(&parts.cells[i], at);
            set_word(&mut parts.cells[i], at, old.wrapping_add(rng.pick(&[1, u32::MAX])));
        }
        13 => {
            // A Float that is another NaN.
            let i = tagged(rng, parts, &[4]);
            let high = rng.pick(&[0x7FF8_0000u32, 0xFFF8_0000, 0x7FF0_0000, 0x7FFF_FFFF]);
            let low = rng.pick(&[0u32, 1, u32::MAX]);
            set_word(&mut parts.cells[i], 4, low);
            set_word(&mut parts.cells[i], 8, high);
        }
        14 => {
            // A text reference at and past the end of the text.
            let i = tagged(rng, parts, &[5, 40, 41, 53, 54, 62]);
            let text = parts.text.len() as u32;
            let at = rng.pick(&[4, 8]);
            let new = rng.pick(&[
                text,
                text + 1,
                text | 1 << 16,
                text.saturating_sub(1) | 1 << 16,
                text << 16,
            ]);
            set_word(&mut parts.cells[i], at, new);
        }
        15 | 16 if !parts.tables.is_empty() => {
            let i = rng.below(parts.tables.len());
            let at = rng.pick(&[0, 4, 8, 12]);
            let old = word(&parts.tables[i], at);
            let new = edge(rng, old);
            set_word(&mut parts.tables[i], at, new);
        }
        17 if !parts.columns.is_empty() => {
            let i = rng.below(parts.columns.len());
            let at = rng.below(RECORD);
            let old = parts.columns[i][at];
            parts.columns[i][at] = rng.pick(&[0, 1, 2, 3, 4, 255, old.wrapping_add(1)]);
        }
        18 => {
            // Records taken away or added.
            match rng.below(4) {
                0 => {
                    parts.tables.pop();
                }
                1 => {
                    parts.columns.pop();
                }
                2 => parts.columns.push([0; RECORD]),
                _ => parts.tables.push([0; RECORD]),
            }
        }
        19 => {
            // A limit reached and crossed by one.
            let over = rng.below(2);
            match rng.below(4) {
                0 => parts.text.resize(8_192 + over, b'x'),
                1 => parts.tables.resize(16 + over, [0; RECORD]),
                2 => parts.columns.resize(256 + over, [0; RECORD]),
                _ => {
                    // Limits on top: the plan stays one.
                    let mut limit = [0; RECORD];
                    limit[0] = 55;
                    parts.cells.resize((2_048 + over).max(cells), limit);
                }
            }
        }
        20 => {
            // Text moved: what refers to its end breaks.
            let length = rng.below(parts.text.len() + 1);
            parts.text.truncate(length);
        }
        21 => {
            // The last cells dropped, or a second plan behind the first.
            if rng.percent(50) && cells > 1 {
                parts.cells.truncate(rng.range(1, cells - 1));
            } else {
                let mut nothing = [0; RECORD];
                nothing[0] = 57;
                parts.cells.push(nothing);
            }
        }
        22 => {
            // All filled to the last byte, and one more.
            parts.text.resize(8_192, b'x');
            let mut limit = [0; RECORD];
            limit[0] = 55;
            parts.cells.resize(2_048.max(cells), limit);
            if rng.percent(50) {
                parts.text.push(b'x');
            }
        }
        _ => {
            let i = tagged(rng, parts, &[50, 56, 57, 59, 60, 63]);
            let at = rng.pick(&[1, 4, 8, 12]);
            parts.cells[i][at] = parts.cells[i][at].wrapping_add(rng.pick(&[1, 255]));
        }
    }
    if parts.cells.is_empty() && rng.percent(80) {
        let mut nothing = [0; RECORD];
        nothing[0] = 57;
        parts.cells.push(nothing);
    }
}

fn change_bytes(rng: &mut Rng, out: &mut Vec<u8>) {
    let length = out.len();
    match rng.below(10) {
        0 => out[rng.below(length)] ^= 1 << rng.below(8),
        1 => out[rng.below(length)] = rng.next() as u8,
        2 | 3 => {
            // A trailer field, by a byte, a record, or anything.
            let at = length - TRAILER + 4 * rng.below(5);
            let old = word(out, at);
            let near = [
                old.wrapping_add(1),
                old.wrapping_sub(1),
                old.wrapping_add(16),
                old.wrapping_sub(16),
            ];
            let new = if rng.percent(60) { rng.pick(&near) } else { edge(rng, old) };
            set_word(out, at, new);
        }
        4 => {
            // Cut, the last word set to the new length or not.
            let cut = rng.pick(&[1, 4, 16, 20, 32]).min(length);
            out.truncate(length - cut);
            if out.len() >= 4 && rng.percent(60) {
                let (at, total) = (out.len() - 4, out.len() as u32);
                set_word(out, at, total);
            }
        }
        5 => {
            // Grown behind the trailer.
            let more = rng.pick(&[1, 4, 16, 20]);
            out.extend(vec![0; more]);
            if rng.percent(60) {
                let (at, total) = (out.len() - 4, out.len() as u32);
                set_word(out, at, total);
            }
        }
        6 => {
            // Cut to nearly nothing.
            out.truncate(rng.range(0, 24));
            if out.len() >= 4 {
                let (at, total) = (out.len() - 4, out.len() as u32);
                set_word(out, at, total);
            }
        }
        7 => {
            // One byte over the longest sheet, with its length.
            out.resize(45_332 + rng.below(2), 0);
            let (at, total) = (out.len() - 4, out.len() as u32);
            set_word(out, at, total);
        }
        8 => {
            // Bytes put in before the trailer, the length fitting.
            let at = length - TRAILER;
            let more = rng.pick(&[1, 15, 16]);
            out.splice(at..at, vec![0; more]);
            let (at, total) = (out.len() - 4, out.len() as u32);
            set_word(out, at, total);
        }
        _ => {
            // Two starts swapped.
            let at = length - TRAILER;
            let (a, b) = (4 * rng.below(3), 4 * rng.below(3));
            let (x, y) = (word(out, at + a), word(out, at + b));
            set_word(out, at + a, y);
            set_word(out, at + b, x);
        }
    }
}
