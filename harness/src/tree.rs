//! A plan as a tree of our own, and its way from and to the sheet's cells.
//!
//! Written from document 01's "The sheet". The model, the generator and the
//! reader of rows work on this tree; toyDB's own `Node` has its own decoder in
//! sheet.rs, so that a slip in one of the two is seen.

use std::rc::Rc;

/// Bytes of a record, a cell, and the trailer.
pub const RECORD: usize = 16;
/// Bytes of the trailer.
pub const TRAILER: usize = 20;
/// The one NaN that a sheet may hold.
pub const NAN: u64 = 0x7FF8_0000_0000_0000;

/// The tags of document 01.
pub mod tag {
    pub const NULL: u8 = 1;
    pub const BOOLEAN: u8 = 2;
    pub const INTEGER: u8 = 3;
    pub const FLOAT: u8 = 4;
    pub const STRING: u8 = 5;
    pub const COLUMN: u8 = 6;
    pub const AND: u8 = 10;
    pub const OR: u8 = 11;
    pub const EQUAL: u8 = 12;
    pub const GREATER_THAN: u8 = 13;
    pub const LESS_THAN: u8 = 14;
    pub const ADD: u8 = 15;
    pub const DIVIDE: u8 = 16;
    pub const SUBTRACT: u8 = 17;
    pub const MULTIPLY: u8 = 18;
    pub const NOT: u8 = 30;
    pub const IS_NULL: u8 = 31;
    pub const IS_NAN: u8 = 32;
    pub const IDENTITY: u8 = 33;
    pub const NEGATE: u8 = 34;
    pub const SQUARE_ROOT: u8 = 36;
    pub const LABEL: u8 = 40;
    pub const ITEM: u8 = 41;
    pub const KEY: u8 = 42;
    pub const TARGET: u8 = 43;
    pub const AGG: u8 = 44;
    pub const ROW: u8 = 45;
    pub const AGGREGATE: u8 = 50;
    pub const FILTER: u8 = 51;
    pub const HASH_JOIN: u8 = 52;
    pub const INDEX_LOOKUP: u8 = 53;
    pub const KEY_LOOKUP: u8 = 54;
    pub const LIMIT: u8 = 55;
    pub const NESTED_LOOP_JOIN: u8 = 56;
    pub const NOTHING: u8 = 57;
    pub const OFFSET: u8 = 58;
    pub const ORDER: u8 = 59;
    pub const PROJECTION: u8 = 60;
    pub const REMAP: u8 = 61;
    pub const SCAN: u8 = 62;
    pub const VALUES: u8 = 63;
}

/// A value. A float is its bits, a text its reference.
#[derive(Clone, Copy, Debug, PartialEq)]
pub enum Val {
    Null,
    Bool(bool),
    Int(i64),
    Float(u64),
    Str(u32),
}

impl Val {
    /// A float's value with every NaN in the one pattern.
    pub fn float(f: f64) -> Val {
        Val::Float(pattern(f))
    }
}

/// A double's bits, every NaN's as the one pattern. By bits alone: what `sqrt`
/// gives was once seen to miss `is_nan` when optimised.
pub fn pattern(f: f64) -> u64 {
    let bits = f.to_bits();
    if bits & (u64::MAX >> 1) > 0x7FF << 52 { NAN } else { bits }
}

/// An expression. `at` is its cell in the sheet it was read from.
#[derive(Clone, Debug)]
pub struct Expr {
    pub at: u32,
    pub op: Op,
}

/// What an expression does. Operators are named by their tag.
#[derive(Clone, Debug)]
pub enum Op {
    Const(Val),
    Col(u32),
    One(u8, Rc<Expr>),
    Two(u8, Rc<Expr>, Rc<Expr>),
}

/// A column label: none, unqualified, or qualified by a table.
#[derive(Clone, Copy, Debug, PartialEq)]
pub enum Label {
    None,
    Unqualified(u32),
    Qualified(u32, u32),
}

/// A plan node, with toyDB's names.
#[derive(Clone, Debug)]
pub enum Node {
    Aggregate { source: Box<Node>, group_by: Vec<Rc<Expr>>, aggregates: Vec<(u8, Rc<Expr>)> },
    Filter { source: Box<Node>, predicate: Rc<Expr> },
    HashJoin { left: Box<Node>, right: Box<Node>, outer: bool, left_column: u32, right_column: u32 },
    IndexLookup { table: u32, alias: Option<u32>, column: u32, values: Vec<Val> },
    KeyLookup { table: u32, alias: Option<u32>, keys: Vec<Val> },
    Limit { source: Box<Node>, limit: u64 },
    NestedLoopJoin { left: Box<Node>, right: Box<Node>, predicate: Option<Rc<Expr>>, outer: bool },
    Nothing { columns: Vec<Label> },
    Offset { source: Box<Node>, offset: u64 },
    Order { source: Box<Node>, key: Vec<(Rc<Expr>, bool)> },
    Projection { source: Box<Node>, items: Vec<(Rc<Expr>, Label)> },
    Remap { source: Box<Node>, targets: Vec<Option<u32>> },
    Scan { table: u32, alias: Option<u32>, filter: Option<Rc<Expr>> },
    Values { rows: Vec<Vec<Rc<Expr>>> },
}

/// A table record.
#[derive(Clone, Copy, Debug, PartialEq)]
pub struct Table {
    pub name: u32,
    pub first: u32,
    pub count: u32,
    pub key: u32,
}

/// A column record.
#[derive(Clone, Copy, Debug, PartialEq)]
pub struct Column {
    pub name: u32,
    pub kind: u8,
    pub index: bool,
}

/// A sheet: the text, the records and the plan.
#[derive(Clone, Debug)]
pub struct Sheet {
    pub text: Vec<u8>,
    pub tables: Vec<Table>,
    pub columns: Vec<Column>,
    pub root: Node,
}

/// Builds an expression that comes from no cell.
pub fn expr(op: Op) -> Rc<Expr> {
    Rc::new(Expr { at: 0, op })
}

/// Builds a constant.
pub fn con(v: Val) -> Rc<Expr> {
    expr(Op::Const(v))
}

/// Builds a Column.
pub fn col(c: u32) -> Rc<Expr> {
    expr(Op::Col(c))
}

/// Builds a one-operand operator by its tag.
pub fn one(op: u8, x: Rc<Expr>) -> Rc<Expr> {
    expr(Op::One(op, x))
}

/// Builds a two-operand operator by its tag.
pub fn two(op: u8, l: Rc<Expr>, r: Rc<Expr>) -> Rc<Expr> {
    expr(Op::Two(op, l, r))
}

impl Expr {
    /// The number of cells.
    pub fn size(&self) -> usize {
        match &self.op {
            Op::Const(_) | Op::Col(_) => 1,
            Op::One(_, x) => 1 + x.size(),
            Op::Two(_, l, r) => 1 + l.size() + r.size(),
        }
    }
}

impl Node {
    /// The number of cells of the node with all below it.
    pub fn size(&self) -> usize {
        self.own() + self.sources().map(|s| s.size()).sum::<usize>()
    }

    /// The number of cells of the node without its sources.
    pub fn own(&self) -> usize {
        1 + match self {
            Node::Aggregate { group_by, aggregates, .. } => {
                group_by.iter().map(|e| e.size()).sum::<usize>()
                    + aggregates.iter().map(|(_, e)| 1 + e.size()).sum::<usize>()
            }
            Node::Filter { predicate, .. } => predicate.size(),
            Node::HashJoin { .. } | Node::Limit { .. } | Node::Offset { .. } => 0,
            Node::IndexLookup { values, .. } => values.len(),
            Node::KeyLookup { keys, .. } => keys.len(),
            Node::NestedLoopJoin { predicate, .. } => predicate.as_ref().map_or(0, |e| e.size()),
            Node::Nothing { columns } => columns.len(),
            Node::Order { key, .. } => key.iter().map(|(e, _)| 1 + e.size()).sum(),
            Node::Projection { items, .. } => items.iter().map(|(e, _)| 1 + e.size()).sum(),
            Node::Remap { targets, .. } => targets.len(),
            Node::Scan { filter, .. } => filter.as_ref().map_or(0, |e| e.size()),
            Node::Values { rows } => {
                rows.iter().map(|row| 1 + row.iter().map(|e| e.size()).sum::<usize>()).sum()
            }
        }
    }

    /// The node's sources, left first.
    pub fn sources(&self) -> impl Iterator<Item = &Node> {
        let (a, b): (Option<&Node>, Option<&Node>) = match self {
            Node::Aggregate { source, .. }
            | Node::Filter { source, .. }
            | Node::Limit { source, .. }
            | Node::Offset { source, .. }
            | Node::Order { source, .. }
            | Node::Projection { source, .. }
            | Node::Remap { source, .. } => (Some(source), None),
            Node::HashJoin { left, right, .. } | Node::NestedLoopJoin { left, right, .. } => {
                (Some(left), Some(right))
            }
            _ => (None, None),
        };
        a.into_iter().chain(b)
    }

    /// The number of columns that the node emits.
    pub fn columns(&self, tables: &[Table]) -> usize {
        match self {
            Node::Aggregate { group_by, aggregates, .. } => group_by.len() + aggregates.len(),
            Node::Filter { source, .. }
            | Node::Limit { source, .. }
            | Node::Offset { source, .. }
            | Node::Order { source, .. } => source.columns(tables),
            Node::HashJoin { left, right, .. } | Node::NestedLoopJoin { left, right, .. } => {
                left.columns(tables) + right.columns(tables)
            }
            Node::IndexLookup { table, .. }
            | Node::KeyLookup { table, .. }
            | Node::Scan { table, .. } => tables[*table as usize].count as usize,
            Node::Nothing { columns } => columns.len(),
            Node::Projection { items, .. } => items.len(),
            Node::Remap { targets, .. } => {
                targets.iter().flatten().map(|&t| t as usize + 1).max().unwrap_or(0)
            }
            Node::Values { rows } => rows.first().map_or(0, |row| row.len()),
        }
    }
}

/// A cell: tag, flag, a, b, c.
#[derive(Clone, Copy, Debug, PartialEq)]
pub struct Cell {
    pub tag: u8,
    pub flag: u8,
    pub a: u32,
    pub b: u32,
    pub c: u32,
}

impl Cell {
    /// Reads a cell. Its origin, two zero bytes in edition 1, is for the checker and origins.rs.
    pub fn read(bytes: &[u8]) -> Cell {
        Cell {
            tag: bytes[0],
            flag: bytes[1],
            a: word(bytes, 4),
            b: word(bytes, 8),
            c: word(bytes, 12),
        }
    }

    /// Appends the cell's sixteen bytes.
    pub fn write(&self, out: &mut Vec<u8>) {
        out.extend([self.tag, self.flag, 0, 0]);
        out.extend(self.a.to_le_bytes());
        out.extend(self.b.to_le_bytes());
        out.extend(self.c.to_le_bytes());
    }
}

/// Reads a little-endian word.
pub fn word(bytes: &[u8], at: usize) -> u32 {
    u32::from_le_bytes([bytes[at], bytes[at + 1], bytes[at + 2], bytes[at + 3]])
}

/// The stretch of text that a reference names.
pub fn text_of(text: &[u8], reference: u32) -> &[u8] {
    let (offset, length) = ((reference & 0xFFFF) as usize, (reference >> 16) as usize);
    &text[offset..offset + length]
}

/// Reads an accepted sheet. Reads backward from the last cell, parents first.
pub fn decode(bytes: &[u8]) -> Sheet {
    let end = bytes.len() - TRAILER;
    let (tables, columns, cells) =
        (word(bytes, end) as usize, word(bytes, end + 4) as usize, word(bytes, end + 8) as usize);
    let list: Vec<Cell> = bytes[cells..end].chunks(RECORD).map(Cell::read).collect();
    let mut reader = Reader { at: list.len(), cells: list };
    Sheet {
        text: bytes[..tables].to_vec(),
        tables: bytes[tables..columns]
            .chunks(RECORD)
            .map(|r| Table {
                name: word(r, 0),
                first: word(r, 4),
                count: word(r, 8),
                key: word(r, 12),
            })
            .collect(),
        columns: bytes[columns..cells]
            .chunks(RECORD)
            .map(|r| Column { name: word(r, 0), kind: r[4], index: r[5] == 1 })
            .collect(),
        root: reader.node(),
    }
}

/// Reads cells backward: the last child of a cell is the tree just before it.
struct Reader {
    cells: Vec<Cell>,
    at: usize,
}

impl Reader {
    fn take(&mut self) -> Cell {
        self.at -= 1;
        self.cells[self.at]
    }

    /// Reads `count` children, which stand in reverse.
    fn many<T>(&mut self, count: u32, mut one: impl FnMut(&mut Self) -> T) -> Vec<T> {
        let mut list: Vec<T> = (0..count).map(|_| one(self)).collect();
        list.reverse();
        list
    }

    fn expr(&mut self) -> Rc<Expr> {
        let cell = self.take();
        let at = self.at as u32;
        let op = match cell.tag {
            tag::COLUMN => Op::Col(cell.a),
            tag::AND..=tag::MULTIPLY => {
                let r = self.expr();
                let l = self.expr();
                Op::Two(cell.tag, l, r)
            }
            tag::NOT..=tag::NEGATE | tag::SQUARE_ROOT => Op::One(cell.tag, self.expr()),
            _ => Op::Const(constant(&cell)),
        };
        Rc::new(Expr { at, op })
    }

    fn value(&mut self) -> Val {
        let cell = self.take();
        constant(&cell)
    }

    fn boxed(&mut self) -> Box<Node> {
        Box::new(self.node())
    }

    fn node(&mut self) -> Node {
        let Cell { tag, flag, a, b, c } = self.take();
        let amount = a as u64 | (b as u64) << 32;
        match tag {
            tag::AGGREGATE => {
                let aggregates = self.many(b, |r| {
                    let agg = r.take();
                    (agg.flag, r.expr())
                });
                let group_by = self.many(a, Self::expr);
                Node::Aggregate { source: self.boxed(), group_by, aggregates }
            }
            tag::FILTER => {
                let predicate = self.expr();
                Node::Filter { source: self.boxed(), predicate }
            }
            tag::HASH_JOIN => {
                let right = self.boxed();
                let left = self.boxed();
                Node::HashJoin { left, right, outer: flag == 1, left_column: a, right_column: b }
            }
            tag::INDEX_LOOKUP => Node::IndexLookup {
                table: a,
                alias: (flag == 1).then_some(b),
                column: c & 0xFFFF,
                values: self.many(c >> 16, Self::value),
            },
            tag::KEY_LOOKUP => Node::KeyLookup {
                table: a,
                alias: (flag == 1).then_some(b),
                keys: self.many(c, Self::value),
            },
            tag::LIMIT => Node::Limit { source: self.boxed(), limit: amount },
            tag::OFFSET => Node::Offset { source: self.boxed(), offset: amount },
            tag::NESTED_LOOP_JOIN => {
                let predicate = (flag & 1 != 0).then(|| self.expr());
                let right = self.boxed();
                let left = self.boxed();
                Node::NestedLoopJoin { left, right, predicate, outer: flag & 2 != 0 }
            }
            tag::NOTHING => Node::Nothing {
                columns: self.many(a, |r| {
                    let cell = r.take();
                    label(&cell)
                }),
            },
            tag::ORDER => {
                let key = self.many(a, |r| {
                    let key = r.take();
                    (r.expr(), key.flag == 1)
                });
                Node::Order { source: self.boxed(), key }
            }
            tag::PROJECTION => {
                let items = self.many(a, |r| {
                    let item = r.take();
                    (r.expr(), label(&item))
                });
                Node::Projection { source: self.boxed(), items }
            }
            tag::REMAP => {
                let targets = self.many(a, |r| {
                    let target = r.take();
                    (target.flag == 1).then_some(target.a)
                });
                Node::Remap { source: self.boxed(), targets }
            }
            tag::SCAN => {
                let filter = (flag & 1 != 0).then(|| self.expr());
                Node::Scan { table: a, alias: (flag & 2 != 0).then_some(b), filter }
            }
            tag::VALUES => Node::Values {
                rows: self.many(a, |r| {
                    let row = r.take();
                    r.many(row.a, Self::expr)
                }),
            },
            _ => unreachable!("not an accepted sheet: node tag {tag}"),
        }
    }
}

/// The constant that a cell of tag 1 to 5 holds.
pub fn constant(cell: &Cell) -> Val {
    let both = cell.a as u64 | (cell.b as u64) << 32;
    match cell.tag {
        tag::NULL => Val::Null,
        tag::BOOLEAN => Val::Bool(cell.a == 1),
        tag::INTEGER => Val::Int(both as i64),
        tag::FLOAT => Val::Float(both),
        tag::STRING => Val::Str(cell.a),
        _ => unreachable!("not an accepted sheet: constant tag {}", cell.tag),
    }
}

/// The label of a Label or an Item.
fn label(cell: &Cell) -> Label {
    match cell.flag {
        0 => Label::None,
        1 => Label::Unqualified(cell.a),
        _ => Label::Qualified(cell.a, cell.b),
    }
}

/// The cell of a constant.
pub fn constant_cell(value: &Val) -> Cell {
    let mut out = Vec::new();
    put_value(&mut out, value);
    out[0]
}

/// Writes a plan's cells, children first.
pub fn cells(node: &Node) -> Vec<Cell> {
    let mut out = Vec::new();
    put_node(&mut out, node);
    out
}

fn put(out: &mut Vec<Cell>, tag: u8, flag: u8, a: u32, b: u32, c: u32) {
    out.push(Cell { tag, flag, a, b, c });
}

fn put_value(out: &mut Vec<Cell>, value: &Val) {
    let halves = |bits: u64| (bits as u32, (bits >> 32) as u32);
    match *value {
        Val::Null => put(out, tag::NULL, 0, 0, 0, 0),
        Val::Bool(v) => put(out, tag::BOOLEAN, 0, v as u32, 0, 0),
        Val::Int(v) => {
            let (low, high) = halves(v as u64);
            put(out, tag::INTEGER, 0, low, high, 0)
        }
        Val::Float(v) => {
            let (low, high) = halves(v);
            put(out, tag::FLOAT, 0, low, high, 0)
        }
        Val::Str(v) => put(out, tag::STRING, 0, v, 0, 0),
    }
}

fn put_expr(out: &mut Vec<Cell>, e: &Expr) {
    match &e.op {
        Op::Const(v) => put_value(out, v),
        Op::Col(c) => put(out, tag::COLUMN, 0, *c, 0, 0),
        Op::One(tag, x) => {
            put_expr(out, x);
            put(out, *tag, 0, 0, 0, 0);
        }
        Op::Two(tag, l, r) => {
            put_expr(out, l);
            put_expr(out, r);
            put(out, *tag, 0, 0, 0, 0);
        }
    }
}

fn put_label(out: &mut Vec<Cell>, tag: u8, label: &Label) {
    match *label {
        Label::None => put(out, tag, 0, 0, 0, 0),
        Label::Unqualified(a) => put(out, tag, 1, a, 0, 0),
        Label::Qualified(a, b) => put(out, tag, 2, a, b, 0),
    }
}

fn put_node(out: &mut Vec<Cell>, node: &Node) {
    for source in node.sources() {
        put_node(out, source);
    }
    match node {
        Node::Aggregate { group_by, aggregates, .. } => {
            group_by.iter().for_each(|e| put_expr(out, e));
            for (function, e) in aggregates {
                put_expr(out, e);
                put(out, tag::AGG, *function, 0, 0, 0);
            }
            put(out, tag::AGGREGATE, 0, group_by.len() as u32, aggregates.len() as u32, 0);
        }
        Node::Filter { predicate, .. } => {
            put_expr(out, predicate);
            put(out, tag::FILTER, 0, 0, 0, 0);
        }
        Node::HashJoin { outer, left_column, right_column, .. } => {
            put(out, tag::HASH_JOIN, *outer as u8, *left_column, *right_column, 0)
        }
        Node::IndexLookup { table, alias, column, values } => {
            values.iter().for_each(|v| put_value(out, v));
            let c = column + ((values.len() as u32) << 16);
            put(out, tag::INDEX_LOOKUP, alias.is_some() as u8, *table, alias.unwrap_or(0), c);
        }
        Node::KeyLookup { table, alias, keys } => {
            keys.iter().for_each(|v| put_value(out, v));
            let c = keys.len() as u32;
            put(out, tag::KEY_LOOKUP, alias.is_some() as u8, *table, alias.unwrap_or(0), c);
        }
        Node::Limit { limit, .. } => {
            put(out, tag::LIMIT, 0, *limit as u32, (*limit >> 32) as u32, 0)
        }
        Node::Offset { offset, .. } => {
            put(out, tag::OFFSET, 0, *offset as u32, (*offset >> 32) as u32, 0)
        }
        Node::NestedLoopJoin { predicate, outer, .. } => {
            if let Some(e) = predicate {
                put_expr(out, e);
            }
            let flag = predicate.is_some() as u8 | (*outer as u8) << 1;
            put(out, tag::NESTED_LOOP_JOIN, flag, 0, 0, 0);
        }
        Node::Nothing { columns } => {
            columns.iter().for_each(|l| put_label(out, tag::LABEL, l));
            put(out, tag::NOTHING, 0, columns.len() as u32, 0, 0);
        }
        Node::Order { key, .. } => {
            for (e, descending) in key {
                put_expr(out, e);
                put(out, tag::KEY, *descending as u8, 0, 0, 0);
            }
            put(out, tag::ORDER, 0, key.len() as u32, 0, 0);
        }
        Node::Projection { items, .. } => {
            for (e, label) in items {
                put_expr(out, e);
                put_label(out, tag::ITEM, label);
            }
            put(out, tag::PROJECTION, 0, items.len() as u32, 0, 0);
        }
        Node::Remap { targets, .. } => {
            for target in targets {
                put(out, tag::TARGET, target.is_some() as u8, target.unwrap_or(0), 0, 0);
            }
            put(out, tag::REMAP, 0, targets.len() as u32, 0, 0);
        }
        Node::Scan { table, alias, filter } => {
            if let Some(e) = filter {
                put_expr(out, e);
            }
            let flag = filter.is_some() as u8 | (alias.is_some() as u8) << 1;
            put(out, tag::SCAN, flag, *table, alias.unwrap_or(0), 0);
        }
        Node::Values { rows } => {
            for row in rows {
                row.iter().for_each(|e| put_expr(out, e));
                put(out, tag::ROW, 0, row.len() as u32, 0, 0);
            }
            put(out, tag::VALUES, 0, rows.len() as u32, 0, 0);
        }
    }
}

/// Writes a whole sheet.
pub fn encode(sheet: &Sheet) -> Vec<u8> {
    let mut out = sheet.text.clone();
    let tables = out.len();
    for t in &sheet.tables {
        for w in [t.name, t.first, t.count, t.key] {
            out.extend(w.to_le_bytes());
        }
    }
    let columns = out.len();
    for c in &sheet.columns {
        out.extend(c.name.to_le_bytes());
        out.extend([c.kind, c.index as u8]);
        out.extend([0; 10]);
    }
    with_cells(out, tables, columns, &cells(&sheet.root))
}

/// Appends cells and trailer to text and records.
pub fn with_cells(mut out: Vec<u8>, tables: usize, columns: usize, cells: &[Cell]) -> Vec<u8> {
    let start = out.len();
    cells.iter().for_each(|c| c.write(&mut out));
    let total = out.len() + TRAILER;
    for w in [tables, columns, start, 1, total] {
        out.extend((w as u32).to_le_bytes());
    }
    out
}
