//! Accepted sheets to toyDB's `Node` and back.
//!
//! toyDB's plans hold `String`s where a sheet holds text references, and two
//! references may name equal text. So each text is given to toyDB with its
//! reference behind it, after a NUL byte, and the reference is read back from
//! what toyDB hands out. toyDB looks into a text in one place only, where
//! folding evaluates Equal, GreaterThan or LessThan of two String constants;
//! both constants vanish there, so such pairs are given the bare text and every
//! comparison is toyDB's own on the true text. original.rs also runs the bare
//! plan and asks that both runs have the same shape and the same texts.

use crate::sql::planner::{Aggregate, Direction, Node};
use crate::sql::types::{Column, DataType, Expression, Label, Table, Value};
use crate::tree::{self, Cell, tag, text_of, word};

/// How texts are handed to toyDB.
#[derive(Clone, Copy, PartialEq)]
pub enum Texts {
    /// As they are.
    Bare,
    /// With the reference behind them.
    Tagged,
    /// With the reference behind them, but bare where folding compares them.
    TaggedForFolding,
    /// As they are, but names on one line: what can't be seen is escaped in
    /// them as `escape_debug` does it in a string, which is how the command
    /// prints names.
    OnOneLine,
}

/// An open tree on the decoder's stack.
enum Open {
    Expr(Expression),
    Label(Label),
    Item(Expression, Label),
    Key(Expression, Direction),
    Target(Option<usize>),
    Agg(Aggregate),
    Row(Vec<Expression>),
    Node(Node),
}

/// Decodes an accepted sheet. None if a text in it isn't UTF-8.
pub fn decode(bytes: &[u8], texts: Texts) -> Option<Node> {
    let end = bytes.len() - tree::TRAILER;
    let (tables, columns, cells) =
        (word(bytes, end) as usize, word(bytes, end + 4) as usize, word(bytes, end + 8) as usize);
    let mut decoder = Decoder { text: &bytes[..tables], texts, tables: Vec::new(), stack: vec![] };
    for (number, record) in bytes[tables..columns].chunks(tree::RECORD).enumerate() {
        let (first, count) = (word(record, 4) as usize, word(record, 8) as usize);
        let mut list = Vec::new();
        for i in first..first + count {
            let column = &bytes[columns + i * tree::RECORD..][..tree::RECORD];
            list.push(Column {
                name: decoder.string(word(column, 0))?,
                datatype: match column[4] {
                    0 => DataType::Boolean,
                    1 => DataType::Integer,
                    2 => DataType::Float,
                    _ => DataType::String,
                },
                nullable: false,
                default: None,
                unique: false,
                index: column[5] == 1,
                // No optimizer reads references: they carry the table's number.
                references: Some(number.to_string()),
            });
        }
        let name = decoder.string(word(record, 0))?;
        let primary_key = word(record, 12) as usize;
        decoder.tables.push(Table { name, primary_key, columns: list });
    }
    for cell in bytes[cells..end].chunks(tree::RECORD) {
        let open = decoder.cell(Cell::read(cell))?;
        decoder.stack.push(open);
    }
    Some(decoder.node())
}

/// A name without characters that `escape_debug` would escape behind a letter,
/// quotes and backslashes aside.
fn on_one_line(name: &str) -> String {
    let mut line = String::new();
    for c in name.chars() {
        match c {
            '"' | '\'' | '\\' => line.push(c),
            _ => line.push_str(&String::from_iter(['a', c]).escape_debug().to_string()[1..]),
        }
    }
    line
}

struct Decoder<'a> {
    text: &'a [u8],
    texts: Texts,
    tables: Vec<Table>,
    stack: Vec<Open>,
}

impl Decoder<'_> {
    fn string(&self, reference: u32) -> Option<String> {
        let text = std::str::from_utf8(text_of(self.text, reference)).ok()?;
        Some(match self.texts {
            Texts::Bare => text.to_string(),
            Texts::Tagged | Texts::TaggedForFolding => format!("{text}\0{reference}"),
            Texts::OnOneLine => on_one_line(text),
        })
    }

    /// A String's text, which toyDB escapes itself when it prints it.
    fn constant(&self, reference: u32) -> Option<String> {
        if self.texts != Texts::OnOneLine {
            return self.string(reference);
        }
        Some(std::str::from_utf8(text_of(self.text, reference)).ok()?.to_string())
    }

    fn expr(&mut self) -> Expression {
        let Some(Open::Expr(e)) = self.stack.pop() else { unreachable!("expression") };
        e
    }

    /// An expression that folding will visit.
    fn visited(&mut self) -> Expression {
        let e = self.expr();
        if self.texts == Texts::TaggedForFolding { untag_compared(e) } else { e }
    }

    fn node(&mut self) -> Node {
        let Some(Open::Node(n)) = self.stack.pop() else { unreachable!("node") };
        n
    }

    fn source(&mut self) -> Box<Node> {
        Box::new(self.node())
    }

    fn many<T>(&mut self, count: u32, mut one: impl FnMut(&mut Self) -> T) -> Vec<T> {
        let mut list: Vec<T> = (0..count).map(|_| one(self)).collect();
        list.reverse();
        list
    }

    fn label(&self, cell: &Cell) -> Option<Label> {
        Some(match cell.flag {
            0 => Label::None,
            1 => Label::Unqualified(self.string(cell.a)?),
            _ => Label::Qualified(self.string(cell.a)?, self.string(cell.b)?),
        })
    }

    fn alias(&self, has: bool, reference: u32) -> Option<Option<String>> {
        if has { self.string(reference).map(Some) } else { Some(None) }
    }

    fn value(&mut self) -> Value {
        let Expression::Constant(v) = self.expr() else { unreachable!("constant") };
        v
    }

    /// Builds what the cell stands for from the open trees. None if a text in
    /// it isn't UTF-8.
    fn cell(&mut self, cell: Cell) -> Option<Open> {
        let Cell { tag, flag, a, b, c } = cell;
        let amount = (a as u64 | (b as u64) << 32) as usize;
        let nan = Value::Float(f64::from_bits(tree::NAN));
        Some(match tag {
            tag::NULL => Open::Expr(Value::Null.into()),
            tag::BOOLEAN => Open::Expr(Value::Boolean(a == 1).into()),
            tag::INTEGER => Open::Expr(Value::Integer(amount as u64 as i64).into()),
            tag::FLOAT => Open::Expr(Value::Float(f64::from_bits(amount as u64)).into()),
            tag::STRING => Open::Expr(Value::String(self.constant(a)?).into()),
            tag::COLUMN => Open::Expr(Expression::Column(a as usize)),
            tag::AND..=tag::MULTIPLY => {
                let rhs = Box::new(self.expr());
                let lhs = Box::new(self.expr());
                Open::Expr(match tag {
                    tag::AND => Expression::And(lhs, rhs),
                    tag::OR => Expression::Or(lhs, rhs),
                    tag::EQUAL => Expression::Equal(lhs, rhs),
                    tag::GREATER_THAN => Expression::GreaterThan(lhs, rhs),
                    tag::LESS_THAN => Expression::LessThan(lhs, rhs),
                    tag::ADD => Expression::Add(lhs, rhs),
                    tag::SUBTRACT => Expression::Subtract(lhs, rhs),
                    tag::MULTIPLY => Expression::Multiply(lhs, rhs),
                    _ => Expression::Divide(lhs, rhs),
                })
            }
            tag::NOT..=tag::NEGATE | tag::SQUARE_ROOT => {
                let e = Box::new(self.expr());
                Open::Expr(match tag {
                    tag::NOT => Expression::Not(e),
                    tag::IS_NULL => Expression::Is(e, Value::Null),
                    tag::IS_NAN => Expression::Is(e, nan),
                    tag::IDENTITY => Expression::Identity(e),
                    tag::SQUARE_ROOT => Expression::SquareRoot(e),
                    _ => Expression::Negate(e),
                })
            }
            tag::LABEL => Open::Label(self.label(&cell)?),
            tag::ITEM => {
                let label = self.label(&cell)?;
                Open::Item(self.expr(), label)
            }
            tag::KEY => {
                let direction =
                    if flag == 1 { Direction::Descending } else { Direction::Ascending };
                Open::Key(self.expr(), direction)
            }
            tag::TARGET => Open::Target((flag == 1).then_some(a as usize)),
            tag::AGG => {
                let e = self.expr();
                Open::Agg(match flag {
                    0 => Aggregate::Average(e),
                    1 => Aggregate::Count(e),
                    2 => Aggregate::Max(e),
                    3 => Aggregate::Min(e),
                    _ => Aggregate::Sum(e),
                })
            }
            tag::ROW => Open::Row(self.many(a, Self::expr)),
            tag::AGGREGATE => {
                let aggregates = self.many(b, |d| {
                    let Some(Open::Agg(agg)) = d.stack.pop() else { unreachable!("agg") };
                    agg
                });
                // Folding doesn't visit these: they keep their references.
                let group_by = self.many(a, Self::expr);
                Open::Node(Node::Aggregate { source: self.source(), group_by, aggregates })
            }
            tag::FILTER => {
                let predicate = self.visited();
                Open::Node(Node::Filter { source: self.source(), predicate })
            }
            tag::HASH_JOIN => {
                let right = self.source();
                let left = self.source();
                Open::Node(Node::HashJoin {
                    left,
                    left_column: a as usize,
                    right,
                    right_column: b as usize,
                    outer: flag == 1,
                })
            }
            tag::INDEX_LOOKUP => Open::Node(Node::IndexLookup {
                values: self.many(c >> 16, Self::value),
                table: self.tables[a as usize].clone(),
                column: (c & 0xFFFF) as usize,
                alias: self.alias(flag == 1, b)?,
            }),
            tag::KEY_LOOKUP => Open::Node(Node::KeyLookup {
                keys: self.many(c, Self::value),
                table: self.tables[a as usize].clone(),
                alias: self.alias(flag == 1, b)?,
            }),
            tag::LIMIT => Open::Node(Node::Limit { source: self.source(), limit: amount }),
            tag::OFFSET => Open::Node(Node::Offset { source: self.source(), offset: amount }),
            tag::NESTED_LOOP_JOIN => {
                let predicate = (flag & 1 != 0).then(|| self.visited());
                let right = self.source();
                let left = self.source();
                Open::Node(Node::NestedLoopJoin { left, right, predicate, outer: flag & 2 != 0 })
            }
            tag::NOTHING => Open::Node(Node::Nothing {
                columns: self.many(a, |d| {
                    let Some(Open::Label(label)) = d.stack.pop() else { unreachable!("label") };
                    label
                }),
            }),
            tag::ORDER => {
                let key = self.many(a, |d| {
                    let Some(Open::Key(e, direction)) = d.stack.pop() else { unreachable!("key") };
                    d.stack.push(Open::Expr(e));
                    (d.visited(), direction)
                });
                Open::Node(Node::Order { source: self.source(), key })
            }
            tag::PROJECTION => {
                let items = self.many(a, |d| {
                    let Some(Open::Item(e, label)) = d.stack.pop() else { unreachable!("item") };
                    d.stack.push(Open::Expr(e));
                    (d.visited(), label)
                });
                let (expressions, aliases) = items.into_iter().unzip();
                Open::Node(Node::Projection { source: self.source(), expressions, aliases })
            }
            tag::REMAP => {
                let targets = self.many(a, |d| {
                    let Some(Open::Target(target)) = d.stack.pop() else { unreachable!("target") };
                    target
                });
                Open::Node(Node::Remap { source: self.source(), targets })
            }
            tag::SCAN => Open::Node(Node::Scan {
                filter: (flag & 1 != 0).then(|| self.visited()),
                table: self.tables[a as usize].clone(),
                alias: self.alias(flag & 2 != 0, b)?,
            }),
            tag::VALUES => Open::Node(Node::Values {
                rows: self.many(a, |d| {
                    let Some(Open::Row(row)) = d.stack.pop() else { unreachable!("row") };
                    row.into_iter()
                        .map(|e| {
                            d.stack.push(Open::Expr(e));
                            d.visited()
                        })
                        .collect()
                }),
            }),
            _ => unreachable!("not an accepted sheet: tag {tag}"),
        })
    }
}

/// Takes the reference off a tagged text.
pub fn untag(text: &str) -> Option<(&str, u32)> {
    let (text, reference) = text.rsplit_once('\0')?;
    Some((text, reference.parse().ok()?))
}

/// Bares the texts of each comparison of two String constants.
fn untag_compared(e: Expression) -> Expression {
    use Expression::{Constant, Equal, GreaterThan, LessThan};
    let bare = |e: Expression| match e {
        Constant(Value::String(s)) => {
            let text = untag(&s).map(|(text, _)| text.to_string());
            Constant(Value::String(text.unwrap_or(s)))
        }
        e => e,
    };
    let texts = |l: &Expression, r: &Expression| {
        matches!((l, r), (Constant(Value::String(_)), Constant(Value::String(_))))
    };
    let xform = |e| match e {
        Equal(l, r) if texts(&l, &r) => Equal(bare(*l).into(), bare(*r).into()),
        GreaterThan(l, r) if texts(&l, &r) => GreaterThan(bare(*l).into(), bare(*r).into()),
        LessThan(l, r) if texts(&l, &r) => LessThan(bare(*l).into(), bare(*r).into()),
        e => e,
    };
    e.transform(&Ok, &|e| Ok(xform(e))).expect("infallible")
}

/// Encodes a node's cells. Texts are turned into numbers by the caller; None
/// if it has none for a text.
pub fn encode(node: &Node, reference: &dyn Fn(&str) -> Option<u32>) -> Option<Vec<Cell>> {
    let mut encoder = Encoder { out: Vec::new(), reference };
    encoder.node(node)?;
    Some(encoder.out)
}

struct Encoder<'a> {
    out: Vec<Cell>,
    reference: &'a dyn Fn(&str) -> Option<u32>,
}

impl Encoder<'_> {
    fn put(&mut self, tag: u8, flag: u8, a: usize, b: usize, c: usize) {
        self.out.push(Cell { tag, flag, a: a as u32, b: b as u32, c: c as u32 });
    }

    fn value(&mut self, value: &Value) -> Option<()> {
        match value {
            Value::Null => self.put(tag::NULL, 0, 0, 0, 0),
            Value::Boolean(v) => self.put(tag::BOOLEAN, 0, *v as usize, 0, 0),
            Value::Integer(v) => self.put(tag::INTEGER, 0, *v as usize, *v as usize >> 32, 0),
            Value::Float(v) => {
                // Compiled code may hold any NaN; a sheet holds one.
                let bits = tree::pattern(*v) as usize;
                self.put(tag::FLOAT, 0, bits, bits >> 32, 0)
            }
            Value::String(v) => {
                let a = (self.reference)(v)? as usize;
                self.put(tag::STRING, 0, a, 0, 0)
            }
        }
        Some(())
    }

    fn expr(&mut self, e: &Expression) -> Option<()> {
        use Expression::*;
        let tag = match e {
            Constant(v) => return self.value(v),
            Column(c) => {
                self.put(tag::COLUMN, 0, *c, 0, 0);
                return Some(());
            }
            And(..) => tag::AND,
            Or(..) => tag::OR,
            Equal(..) => tag::EQUAL,
            GreaterThan(..) => tag::GREATER_THAN,
            LessThan(..) => tag::LESS_THAN,
            Add(..) => tag::ADD,
            Divide(..) => tag::DIVIDE,
            Subtract(..) => tag::SUBTRACT,
            Multiply(..) => tag::MULTIPLY,
            Not(_) => tag::NOT,
            Is(_, Value::Null) => tag::IS_NULL,
            Is(..) => tag::IS_NAN,
            Identity(_) => tag::IDENTITY,
            Negate(_) => tag::NEGATE,
            SquareRoot(_) => tag::SQUARE_ROOT,
            _ => unreachable!("not carried over: {e:?}"),
        };
        match e {
            And(l, r)
            | Or(l, r)
            | Equal(l, r)
            | GreaterThan(l, r)
            | LessThan(l, r)
            | Add(l, r)
            | Divide(l, r)
            | Subtract(l, r)
            | Multiply(l, r) => {
                self.expr(l)?;
                self.expr(r)?;
            }
            Not(x) | Is(x, _) | Identity(x) | Negate(x) | SquareRoot(x) => self.expr(x)?,
            _ => unreachable!(),
        }
        self.put(tag, 0, 0, 0, 0);
        Some(())
    }

    fn label(&mut self, tag: u8, label: &Label) -> Option<()> {
        match label {
            Label::None => self.put(tag, 0, 0, 0, 0),
            Label::Unqualified(a) => {
                let a = (self.reference)(a)? as usize;
                self.put(tag, 1, a, 0, 0)
            }
            Label::Qualified(a, b) => {
                let (a, b) = ((self.reference)(a)? as usize, (self.reference)(b)? as usize);
                self.put(tag, 2, a, b, 0)
            }
        }
        Some(())
    }

    /// The alias' flag and reference.
    fn alias(&mut self, alias: &Option<String>) -> Option<(u8, usize)> {
        Some(match alias {
            Some(alias) => (1, (self.reference)(alias)? as usize),
            None => (0, 0),
        })
    }

    fn node(&mut self, node: &Node) -> Option<()> {
        match node {
            Node::Aggregate { source, group_by, aggregates } => {
                self.node(source)?;
                for e in group_by {
                    self.expr(e)?;
                }
                for agg in aggregates {
                    self.expr(agg.expr())?;
                    let flag = match agg {
                        Aggregate::Average(_) => 0,
                        Aggregate::Count(_) => 1,
                        Aggregate::Max(_) => 2,
                        Aggregate::Min(_) => 3,
                        Aggregate::Sum(_) => 4,
                    };
                    self.put(tag::AGG, flag, 0, 0, 0);
                }
                self.put(tag::AGGREGATE, 0, group_by.len(), aggregates.len(), 0);
            }
            Node::Filter { source, predicate } => {
                self.node(source)?;
                self.expr(predicate)?;
                self.put(tag::FILTER, 0, 0, 0, 0);
            }
            Node::HashJoin { left, left_column, right, right_column, outer } => {
                self.node(left)?;
                self.node(right)?;
                self.put(tag::HASH_JOIN, *outer as u8, *left_column, *right_column, 0);
            }
            Node::IndexLookup { table, column, values, alias } => {
                for v in values {
                    self.value(v)?;
                }
                let (flag, b) = self.alias(alias)?;
                let c = column + 65_536 * values.len();
                self.put(tag::INDEX_LOOKUP, flag, number(table), b, c);
            }
            Node::KeyLookup { table, keys, alias } => {
                for v in keys {
                    self.value(v)?;
                }
                let (flag, b) = self.alias(alias)?;
                self.put(tag::KEY_LOOKUP, flag, number(table), b, keys.len());
            }
            Node::Limit { source, limit } => {
                self.node(source)?;
                self.put(tag::LIMIT, 0, *limit, *limit >> 32, 0);
            }
            Node::Offset { source, offset } => {
                self.node(source)?;
                self.put(tag::OFFSET, 0, *offset, *offset >> 32, 0);
            }
            Node::NestedLoopJoin { left, right, predicate, outer } => {
                self.node(left)?;
                self.node(right)?;
                let mut flag = if *outer { 2 } else { 0 };
                if let Some(e) = predicate {
                    self.expr(e)?;
                    flag += 1;
                }
                self.put(tag::NESTED_LOOP_JOIN, flag, 0, 0, 0);
            }
            Node::Nothing { columns } => {
                for label in columns {
                    self.label(tag::LABEL, label)?;
                }
                self.put(tag::NOTHING, 0, columns.len(), 0, 0);
            }
            Node::Order { source, key } => {
                self.node(source)?;
                for (e, direction) in key {
                    self.expr(e)?;
                    self.put(tag::KEY, (*direction == Direction::Descending) as u8, 0, 0, 0);
                }
                self.put(tag::ORDER, 0, key.len(), 0, 0);
            }
            Node::Projection { source, expressions, aliases } => {
                self.node(source)?;
                for (e, label) in expressions.iter().zip(aliases) {
                    self.expr(e)?;
                    self.label(tag::ITEM, label)?;
                }
                self.put(tag::PROJECTION, 0, expressions.len(), 0, 0);
            }
            Node::Remap { source, targets } => {
                self.node(source)?;
                for target in targets {
                    self.put(tag::TARGET, target.is_some() as u8, target.unwrap_or(0), 0, 0);
                }
                self.put(tag::REMAP, 0, targets.len(), 0, 0);
            }
            Node::Scan { table, filter, alias } => {
                let (alias, b) = self.alias(alias)?;
                let mut flag = alias * 2;
                if let Some(e) = filter {
                    self.expr(e)?;
                    flag += 1;
                }
                self.put(tag::SCAN, flag, number(table), b, 0);
            }
            Node::Values { rows } => {
                for row in rows {
                    for e in row {
                        self.expr(e)?;
                    }
                    self.put(tag::ROW, 0, row.len(), 0, 0);
                }
                self.put(tag::VALUES, 0, rows.len(), 0, 0);
            }
        }
        Some(())
    }
}

/// The number of the table's record, as decode left it there.
fn number(table: &Table) -> usize {
    table.columns[0].references.as_deref().and_then(|r| r.parse().ok()).expect("table number")
}

/// Replaces a sheet's cells, keeping text and records.
pub fn with_cells(bytes: &[u8], cells: &[Cell]) -> Vec<u8> {
    let end = bytes.len() - tree::TRAILER;
    let (tables, columns, start) =
        (word(bytes, end) as usize, word(bytes, end + 4) as usize, word(bytes, end + 8) as usize);
    tree::with_cells(bytes[..start].to_vec(), tables, columns, cells)
}
