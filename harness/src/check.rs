//! A second checker, written from document 01 alone: refusals 2 to 10.
//!
//! Readings that document 01 leaves to think about:
//! - A text reference lies inside the text if offset + length ≤ its length; an
//!   empty one may stand at the very end. Its validity is part of the layout
//!   of the record or cell that holds it.
//! - A table record is at fault if its range doesn't begin where the one
//!   before ended (0 for the first) or leaves the column records. So a column
//!   in no range is met only behind the last table's range.
//! - Fields that a tag or flag doesn't name are unused and 0; a flag has no
//!   value that document 01 doesn't give it.
//! - 8 is judged as a stack does it, cell by cell; a lookup's child that is no
//!   constant is of another sort.
//! - Widths are defined whatever else is broken: a Values' by its first Row, a
//!   Remap's by its Targets. So 9 doesn't depend on which fault is looked for
//!   first. The cell named is the Column, or the HashJoin, IndexLookup, Values
//!   or Remap whose own rule is broken.

/// What an operation answers: number, place, length, cells, columns.
#[derive(Clone, Copy, Debug, Default, PartialEq, Eq)]
pub struct Answer {
    pub number: u64,
    pub place: u64,
    pub length: u64,
    pub cells: u64,
    pub columns: u64,
}

impl Answer {
    /// A refusal: all but number and place are 0.
    pub fn refusal(number: u64, place: u64) -> Answer {
        Answer { number, place, ..Answer::default() }
    }
}

/// The sorts of tree that may be another cell's child.
#[derive(Clone, Copy, Debug, PartialEq)]
enum Sort {
    Constant,
    Expression,
    Label,
    Item,
    Key,
    Target,
    Agg,
    Row,
    Node,
}

/// A cell with its origin, two bytes that must be zero in edition 1.
#[derive(Clone, Copy)]
struct Cell {
    tag: u8,
    flag: u8,
    origin: u16,
    a: u32,
    b: u32,
    c: u32,
}

fn word(bytes: &[u8], at: usize) -> u32 {
    u32::from_le_bytes(bytes[at..at + 4].try_into().unwrap())
}

/// Whether a reference lies inside a text of this length.
fn inside(reference: u32, text: usize) -> bool {
    (reference & 0xFFFF) as usize + (reference >> 16) as usize <= text
}

/// Checks a sheet. Success gives length 0, the cell and the column count.
pub fn check(bytes: &[u8]) -> Answer {
    match examine(bytes) {
        Ok((cells, columns)) => Answer { cells, columns, ..Answer::default() },
        Err((number, place)) => Answer::refusal(number, place as u64),
    }
}

fn examine(bytes: &[u8]) -> Result<(u64, u64), (u64, usize)> {
    let length = bytes.len();
    // 2: size and last word.
    if !(20..=45_332).contains(&length) || word(bytes, length - 4) as usize != length {
        return Err((2, 0));
    }
    // 3: edition.
    let edition = word(bytes, length - 8);
    if edition != 1 && edition != 2 {
        return Err((3, 0));
    }
    // 4: parts.
    let end = length - 20;
    let tables_at = word(bytes, end) as usize;
    let columns_at = word(bytes, end + 4) as usize;
    let cells_at = word(bytes, end + 8) as usize;
    if !(tables_at <= columns_at && columns_at <= cells_at && cells_at <= end) {
        return Err((4, 0));
    }
    let part = |from: usize, to: usize, limit: usize| {
        let bytes = to - from;
        (bytes % 16 == 0 && bytes / 16 <= limit).then_some(bytes / 16)
    };
    let (Some(tables), Some(columns), Some(cells)) = (
        part(tables_at, columns_at, 16),
        part(columns_at, cells_at, 256),
        part(cells_at, end, 2_048),
    ) else {
        return Err((4, 0));
    };
    if tables_at > 8_192 || cells == 0 {
        return Err((4, 0));
    }
    let text = tables_at;

    // 5: records, the lowest at fault, tables counted first.
    let mut counts = Vec::new();
    let mut next = 0u64;
    for i in 0..tables {
        let at = tables_at + 16 * i;
        let (name, first) = (word(bytes, at), word(bytes, at + 4) as u64);
        let (count, key) = (word(bytes, at + 8) as u64, word(bytes, at + 12) as u64);
        let tiles = first == next && first + count <= columns as u64;
        if !(inside(name, text) && tiles && count >= 1 && key < count) {
            return Err((5, i));
        }
        next = first + count;
        counts.push(count);
    }
    for i in 0..columns {
        let record = &bytes[columns_at + 16 * i..][..16];
        let whole = inside(word(record, 0), text)
            && record[4] <= 3
            && record[5] <= 1
            && record[6..].iter().all(|&b| b == 0);
        if !whole || i as u64 >= next {
            return Err((5, tables + i));
        }
    }

    // 6 and 7: one walk.
    let list: Vec<Cell> = (0..cells)
        .map(|i| {
            let r = &bytes[cells_at + 16 * i..][..16];
            Cell {
                tag: r[0],
                flag: r[1],
                origin: u16::from_le_bytes([r[2], r[3]]),
                a: word(r, 4),
                b: word(r, 8),
                c: word(r, 12),
            }
        })
        .collect();
    for (i, cell) in list.iter().enumerate() {
        if matches!(cell.tag, 19..=21 | 35) {
            return Err((7, i));
        }
        if (edition == 1 && cell.origin != 0) || !whole(cell, text, tables) {
            return Err((6, i));
        }
    }

    // 8: one plan.
    let mut open: Vec<Sort> = Vec::new();
    for (i, cell) in list.iter().enumerate() {
        let wanted = children(cell);
        let total: u64 = wanted.iter().map(|&(_, count)| count).sum();
        if total > open.len() as u64 {
            return Err((8, i));
        }
        let base = open.len() - total as usize;
        let mut at = base;
        for (sort, count) in wanted {
            for _ in 0..count {
                let fits =
                    open[at] == sort || (sort == Sort::Expression && open[at] == Sort::Constant);
                if !fits {
                    return Err((8, i));
                }
                at += 1;
            }
        }
        open.truncate(base);
        open.push(sort(cell.tag));
    }
    if open != [Sort::Node] {
        return Err((8, cells));
    }

    // 9 and 10: with the cells one plan, each tree is a range of cells.
    let mut scope = Scope {
        cells: &list,
        counts: &counts,
        start: starts(&list),
        width: vec![0; cells],
        faults: Vec::new(),
        twice: Vec::new(),
    };
    for i in 0..cells {
        scope.visit(i);
    }
    if let Some(&place) = scope.faults.iter().min() {
        return Err((9, place));
    }
    if let Some(&place) = scope.twice.iter().min() {
        return Err((10, place));
    }
    Ok((cells as u64, scope.width[cells - 1]))
}

/// Whether a cell keeps its layout: unused fields 0, flags and values in
/// range, references inside the text, tables that exist. Tags not carried are
/// handled before.
fn whole(cell: &Cell, text: usize, tables: usize) -> bool {
    let Cell { tag, flag, a, b, c, .. } = *cell;
    let none = flag == 0;
    let table = (a as usize) < tables;
    // A label's flag says which fields it uses.
    let label = match flag {
        0 => a == 0 && b == 0,
        1 => inside(a, text) && b == 0,
        2 => inside(a, text) && inside(b, text),
        _ => false,
    } && c == 0;
    let alias = |has: bool| if has { inside(b, text) } else { b == 0 };
    match tag {
        1 => none && a == 0 && b == 0 && c == 0,
        2 => none && a <= 1 && b == 0 && c == 0,
        3 => none && c == 0,
        4 => {
            let bits = (b as u64) << 32 | a as u64;
            let exponent = bits >> 52 & 0x7FF;
            let nan = exponent == 0x7FF && bits & 0xF_FFFF_FFFF_FFFF != 0;
            none && c == 0 && (!nan || bits == 0x7FF8_0000_0000_0000)
        }
        5 => none && inside(a, text) && b == 0 && c == 0,
        6 => none && b == 0 && c == 0,
        10..=18 | 30..=34 | 36 => none && a == 0 && b == 0 && c == 0,
        40 | 41 => label,
        42 => flag <= 1 && a == 0 && b == 0 && c == 0,
        43 => flag <= 1 && a <= 255 * flag as u32 && b == 0 && c == 0,
        44 => flag <= 4 && a == 0 && b == 0 && c == 0,
        45 => none && b == 0 && c == 0,
        50 => none && c == 0,
        51 => none && a == 0 && b == 0 && c == 0,
        52 => flag <= 1 && c == 0,
        53 | 54 => flag <= 1 && table && alias(flag == 1),
        55 | 58 => none && c == 0,
        56 => flag <= 3 && a == 0 && b == 0 && c == 0,
        57 | 59 | 60 | 61 | 63 => none && b == 0 && c == 0,
        62 => flag <= 3 && table && alias(flag & 2 != 0) && c == 0,
        _ => false,
    }
}

/// The sort of tree that a cell closes.
fn sort(tag: u8) -> Sort {
    match tag {
        1..=5 => Sort::Constant,
        6..=36 => Sort::Expression,
        40 => Sort::Label,
        41 => Sort::Item,
        42 => Sort::Key,
        43 => Sort::Target,
        44 => Sort::Agg,
        45 => Sort::Row,
        _ => Sort::Node,
    }
}

/// The children that a cell asks for, in the order named.
fn children(cell: &Cell) -> Vec<(Sort, u64)> {
    use Sort::*;
    let (a, b, c) = (cell.a as u64, cell.b as u64, cell.c as u64);
    match cell.tag {
        10..=18 => vec![(Expression, 2)],
        30..=34 | 36 | 41 | 42 | 44 => vec![(Expression, 1)],
        45 => vec![(Expression, a)],
        50 => vec![(Node, 1), (Expression, a), (Agg, b)],
        51 => vec![(Node, 1), (Expression, 1)],
        52 => vec![(Node, 2)],
        53 => vec![(Constant, c >> 16)],
        54 => vec![(Constant, c)],
        55 | 58 => vec![(Node, 1)],
        56 => vec![(Node, 2), (Expression, (cell.flag & 1) as u64)],
        57 => vec![(Label, a)],
        59 => vec![(Node, 1), (Key, a)],
        60 => vec![(Node, 1), (Item, a)],
        61 => vec![(Node, 1), (Target, a)],
        62 => vec![(Expression, (cell.flag & 1) as u64)],
        63 => vec![(Row, a)],
        _ => vec![],
    }
}

/// The first cell of each cell's tree.
fn starts(cells: &[Cell]) -> Vec<usize> {
    let mut open: Vec<usize> = Vec::new();
    let mut start = Vec::new();
    for (i, cell) in cells.iter().enumerate() {
        let total: u64 = children(cell).iter().map(|&(_, count)| count).sum();
        let base = open.len() - total as usize;
        let first = if total == 0 { i } else { open[base] };
        open.truncate(base);
        open.push(first);
        start.push(first);
    }
    start
}

/// Widths of nodes and the faults against scope, found in one walk upward.
struct Scope<'a> {
    cells: &'a [Cell],
    counts: &'a [u64],
    start: Vec<usize>,
    width: Vec<u64>,
    faults: Vec<usize>,
    twice: Vec<usize>,
}

impl Scope<'_> {
    /// The cells that close the children of cell `i`, in order.
    fn children(&self, i: usize) -> Vec<usize> {
        let mut list = Vec::new();
        let mut end = i;
        while end > self.start[i] {
            list.push(end - 1);
            end = self.start[end - 1];
        }
        list.reverse();
        list
    }

    /// Asks every Column of a tree to be below the width.
    fn columns(&mut self, root: usize, width: u64) {
        for i in self.start[root]..=root {
            if self.cells[i].tag == 6 && self.cells[i].a as u64 >= width {
                self.faults.push(i);
            }
        }
    }

    /// Settles a node's width and looks for faults against its sources'.
    fn visit(&mut self, i: usize) {
        let Cell { tag, a, b, c, .. } = self.cells[i];
        if tag < 50 {
            return;
        }
        let below = self.children(i);
        let table = |a: u32| self.counts[a as usize];
        let source = |k: usize| self.width[below[k]];
        let mut own = false;
        // The node's width, its children that are or hold expressions, and the
        // width that these see.
        let (width, from, seen) = match tag {
            50 => (a as u64 + b as u64, 1, source(0)),
            51 | 59 => (source(0), 1, source(0)),
            52 => {
                own = a as u64 >= source(0) || b as u64 >= source(1);
                (source(0) + source(1), 2, 0)
            }
            53 => {
                own = (c & 0xFFFF) as u64 >= table(a);
                (table(a), 0, 0)
            }
            54 => (table(a), 0, 0),
            55 | 58 => (source(0), 1, 0),
            56 => (source(0) + source(1), 2, source(0) + source(1)),
            57 => (a as u64, 0, 0),
            60 => (a as u64, 1, source(0)),
            61 => {
                own = a as u64 != source(0);
                let targets = &below[1..];
                let used = targets.iter().filter(|&&t| self.cells[t].flag == 1);
                (used.map(|&t| self.cells[t].a as u64 + 1).max().unwrap_or(0), 1, 0)
            }
            62 => (table(a), 0, table(a)),
            _ => {
                let long = |&r: &usize| self.cells[r].a;
                own = below.iter().any(|r| long(r) != long(&below[0]));
                (below.first().map_or(0, |r| long(r) as u64), 0, 0)
            }
        };
        for &child in &below[from..] {
            self.columns(child, seen);
        }
        if tag == 61 {
            let used: Vec<usize> =
                below[1..].iter().copied().filter(|&t| self.cells[t].flag == 1).collect();
            for (k, &later) in used.iter().enumerate() {
                if used[..k].iter().any(|&t| self.cells[t].a == self.cells[later].a) {
                    self.twice.push(later);
                }
            }
        }
        if own {
            self.faults.push(i);
        }
        self.width[i] = width;
    }
}

#[cfg(test)]
mod tests {
    use super::*;

    /// A sheet of text, tables, columns and cells, with its trailer.
    fn sheet(
        text: &[u8],
        tables: &[[u32; 4]],
        columns: &[(u32, u8, u8)],
        cells: &[[u32; 5]],
    ) -> Vec<u8> {
        let mut out = text.to_vec();
        let t = out.len();
        tables.iter().flatten().for_each(|w| out.extend(w.to_le_bytes()));
        let c = out.len();
        for &(name, kind, mark) in columns {
            out.extend(name.to_le_bytes());
            out.extend([kind, mark]);
            out.extend([0; 10]);
        }
        let l = out.len();
        for cell in cells {
            out.extend([cell[0] as u8, cell[1] as u8, 0, 0]);
            cell[2..].iter().for_each(|w| out.extend(w.to_le_bytes()));
        }
        let total = out.len() + 20;
        [t, c, l, 1, total].iter().for_each(|&w| out.extend((w as u32).to_le_bytes()));
        out
    }

    fn said(bytes: &[u8]) -> (u64, u64) {
        let answer = check(bytes);
        (answer.number, answer.place)
    }

    #[test]
    fn accepts_a_row() {
        let answer =
            check(&sheet(b"", &[], &[], &[[3, 0, 1, 0, 0], [45, 0, 1, 0, 0], [63, 0, 1, 0, 0]]));
        assert_eq!(answer, Answer { cells: 3, columns: 1, ..Answer::default() });
    }

    #[test]
    fn sizes_and_parts() {
        assert_eq!(said(&[0; 19]), (2, 0));
        let mut s = sheet(b"", &[], &[], &[[57, 0, 0, 0, 0]]);
        assert_eq!(said(&s), (0, 0));
        // Edition 2 has an origin in each cell, edition 1 zeros, and there is no edition 3 or 0.
        s[28] = 2;
        assert_eq!(said(&s), (0, 0));
        s[3] = 7;
        assert_eq!(said(&s), (0, 0));
        s[28] = 1;
        assert_eq!(said(&s), (6, 0));
        s[3] = 0;
        for edition in [0, 3] {
            s[28] = edition;
            assert_eq!(said(&s), (3, 0));
        }
        assert_eq!(said(&sheet(b"", &[], &[], &[])), (4, 0));
        assert_eq!(said(&sheet(&[0; 8_193], &[], &[], &[[57, 0, 0, 0, 0]])), (4, 0));
        assert_eq!(said(&sheet(&[0; 8_192], &[], &[], &[[57, 0, 0, 0, 0]])), (0, 0));
        assert_eq!(said(&sheet(b"", &[[0; 4]; 17], &[], &[[57, 0, 0, 0, 0]])), (4, 0));
        assert_eq!(said(&sheet(b"", &[], &[(0, 0, 0); 257], &[[57, 0, 0, 0, 0]])), (4, 0));
        assert_eq!(said(&sheet(b"", &[], &[], &[[40, 0, 0, 0, 0]; 2_049])), (4, 0));
    }

    #[test]
    fn records() {
        let cell = [[57, 0, 0, 0, 0]];
        // A column in no range, behind the last one's and without tables.
        assert_eq!(said(&sheet(b"", &[], &[(0, 0, 0)], &cell)), (5, 0));
        assert_eq!(said(&sheet(b"", &[[0, 0, 1, 0]], &[(0, 0, 0), (0, 0, 0)], &cell)), (5, 2));
        // A gap, and a range that leaves the records, are the table's fault.
        let two = [(0, 0, 0), (0, 0, 0)];
        assert_eq!(said(&sheet(b"", &[[0, 1, 1, 0]], &two, &cell)), (5, 0));
        assert_eq!(said(&sheet(b"", &[[0, 0, 3, 0]], &two, &cell)), (5, 0));
        assert_eq!(said(&sheet(b"", &[[0, 0, 1, 0], [0, 1, 1, 1]], &two, &cell)), (5, 1));
        // An empty name may stand at the end of the text, not behind it.
        assert_eq!(said(&sheet(b"ab", &[[2, 0, 2, 1]], &two, &cell)), (0, 0));
        assert_eq!(said(&sheet(b"ab", &[[3, 0, 2, 1]], &two, &cell)), (5, 0));
        assert_eq!(said(&sheet(b"", &[[0, 0, 2, 0]], &[(0, 0, 0), (0, 4, 0)], &cell)), (5, 2));
    }

    #[test]
    fn cells_one_walk() {
        // The lowest cell wins, whichever of 6 and 7; 7 with any fields.
        assert_eq!(said(&sheet(b"", &[], &[], &[[19, 9, 9, 9, 9], [0, 0, 0, 0, 0]])), (7, 0));
        assert_eq!(said(&sheet(b"", &[], &[], &[[0, 0, 0, 0, 0], [19, 9, 9, 9, 9]])), (6, 0));
        assert_eq!(said(&sheet(b"", &[], &[], &[[2, 0, 2, 0, 0]])), (6, 0));
        assert_eq!(said(&sheet(b"", &[], &[], &[[4, 0, 0, 0x7FF8_0001, 0]])), (6, 0));
        assert_eq!(said(&sheet(b"", &[], &[], &[[4, 0, 0, 0x7FF8_0000, 0]])), (8, 1));
        assert_eq!(said(&sheet(b"", &[], &[], &[[43, 0, 1, 0, 0]])), (6, 0));
        assert_eq!(said(&sheet(b"", &[], &[], &[[43, 1, 256, 0, 0]])), (6, 0));
        assert_eq!(said(&sheet(b"", &[], &[], &[[62, 0, 0, 0, 0]])), (6, 0));
    }

    #[test]
    fn one_plan() {
        assert_eq!(said(&sheet(b"", &[], &[], &[[30, 0, 0, 0, 0]])), (8, 0));
        assert_eq!(said(&sheet(b"", &[], &[], &[[57, 0, 0, 0, 0], [57, 0, 0, 0, 0]])), (8, 2));
        assert_eq!(said(&sheet(b"", &[], &[], &[[1, 0, 0, 0, 0], [57, 0, 0, 0, 0]])), (8, 2));
        // A lookup's children are constants.
        let table: &[[u32; 4]] = &[[0, 0, 1, 0]];
        let column = &[(0, 1, 0)];
        assert_eq!(said(&sheet(b"", table, column, &[[6, 0, 0, 0, 0], [54, 0, 0, 0, 1]])), (8, 1));
        assert_eq!(said(&sheet(b"", table, column, &[[1, 0, 0, 0, 0], [54, 0, 0, 0, 1]])), (0, 0));
    }

    #[test]
    fn scope() {
        let table: &[[u32; 4]] = &[[0, 0, 1, 0]];
        let column = &[(0, 1, 0)];
        let scan = [62, 0, 0, 0, 0];
        assert_eq!(said(&sheet(b"", table, column, &[[6, 0, 0, 0, 0], [62, 1, 0, 0, 0]])), (0, 0));
        assert_eq!(said(&sheet(b"", table, column, &[[6, 0, 1, 0, 0], [62, 1, 0, 0, 0]])), (9, 0));
        assert_eq!(said(&sheet(b"", table, column, &[scan, scan, [52, 0, 0, 1, 0]])), (9, 2));
        assert_eq!(
            said(&sheet(
                b"",
                table,
                column,
                &[scan, [43, 0, 0, 0, 0], [43, 0, 0, 0, 0], [61, 0, 2, 0, 0]]
            )),
            (9, 3)
        );
        // The lowest fault wins: a Column above a broken Values comes second.
        let cells = [
            [45, 0, 0, 0, 0],
            [1, 0, 0, 0, 0],
            [45, 0, 1, 0, 0],
            [63, 0, 2, 0, 0],
            [6, 0, 0, 0, 0],
            [51, 0, 0, 0, 0],
        ];
        assert_eq!(said(&sheet(b"", &[], &[], &cells)), (9, 3));
        // Equal Targets.
        let cells =
            [scan, scan, [56, 0, 0, 0, 0], [43, 1, 7, 0, 0], [43, 1, 7, 0, 0], [61, 0, 2, 0, 0]];
        assert_eq!(said(&sheet(b"", table, column, &cells)), (10, 4));
    }
}
