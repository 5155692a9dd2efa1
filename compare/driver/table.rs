//! A node table to the crate's AST, or a refusal by the driver's own reading of document 01.
//! With `probes`, calls stand about the operands at which a run can leave the compared domain (probes.rs).
use cel::common::ast::{
    operators as op, CallExpr, ComprehensionExpr, EntryExpr, Expr, IdedEntryExpr, IdedExpr,
    ListExpr, LiteralValue, MapEntryExpr, MapExpr, SelectExpr,
};
use cel::common::types::{CelBytes, CelString};

const BINARY: [&str; 17] = [
    op::LOGICAL_OR,
    op::LOGICAL_AND,
    op::EQUALS,
    op::NOT_EQUALS,
    op::INDEX,
    op::OPT_INDEX,
    op::OPT_SELECT,
    op::ADD,
    op::SUBSTRACT,
    op::DIVIDE,
    op::MULTIPLY,
    op::MODULO,
    op::LESS,
    op::LESS_EQUALS,
    op::GREATER,
    op::GREATER_EQUALS,
    op::IN,
];
const UNARY: [&str; 3] = [op::LOGICAL_NOT, op::NEGATE, op::NOT_STRICTLY_FALSE];
const BODY: [usize; 17] = [2, 3, 10, 10, 10, 6, 6, 3, 3, 3, 2, 7, 4, 4, 2, 4, 3];

type Refusal = (u8, usize);

struct Reader<'a> {
    text: &'a [u8],
    table: &'a [u8],
    at: usize,
    id: u64,
    probes: bool,
    binding: bool,
}

impl<'a> Reader<'a> {
    fn node(&mut self, expr: Expr) -> IdedExpr {
        self.id += 1;
        IdedExpr { id: self.id, expr }
    }

    fn call(&mut self, name: &str, target: Option<IdedExpr>, args: Vec<IdedExpr>) -> IdedExpr {
        self.node(Expr::Call(CallExpr {
            func_name: name.to_owned(),
            target: target.map(Box::new),
            args,
        }))
    }

    fn probe(&mut self, kind: &str, e: IdedExpr, id: u64) -> IdedExpr {
        if !self.probes {
            return e;
        }
        let id = self.node(Expr::Literal(LiteralValue::Int((id as i64).into())));
        self.call(kind, None, vec![e, id])
    }

    fn u16(&self, at: usize) -> usize {
        self.table[at] as usize | (self.table[at + 1] as usize) << 8
    }

    fn span(&self, at: usize, start: usize) -> Result<&'a [u8], Refusal> {
        let (off, len) = (self.u16(at), self.u16(at + 2));
        self.text.get(off..off + len).ok_or((5, start))
    }

    fn string(&self, at: usize, start: usize) -> Result<String, Refusal> {
        String::from_utf8(self.span(at, start)?.to_vec()).map_err(|_| (5, start))
    }

    fn name(&self, at: usize, start: usize) -> Result<String, Refusal> {
        match self.table[at] {
            n if n < 128 => Ok(format!("n{n}")),
            _ => Err((5, start)),
        }
    }

    /// One record; `end` is the parent's end. A mark comes back as (e, true).
    fn record(
        &mut self,
        end: usize,
        depth: usize,
        may_mark: bool,
    ) -> Result<(IdedExpr, bool), Refusal> {
        let s = self.at;
        if s >= self.table.len() {
            return Err((3, s));
        }
        let kind = self.table[s] as usize;
        if kind > 16 {
            return Err((2, s));
        }
        let body = s + 1;
        let after = body + BODY[kind];
        if after > end {
            return Err((3, s));
        }
        let stop = s + self.u16(body);
        let no_operands = kind <= 7
            || (kind == 12 || kind == 13) && self.u16(body + 2) == 0
            || kind == 16 && self.table[body + 2] == 3;
        if stop > end || stop < after || no_operands && stop != after {
            return Err((3, s));
        }
        if depth > 64 {
            return Err((4, s));
        }
        let f = body + 2; // the first field after the extent
        let lit = |l| Ok(Expr::Literal(l));
        let bytes8 = |t: &[u8]| <[u8; 8]>::try_from(&t[f..f + 8]).unwrap();
        let expr: Result<Expr, Refusal> = match kind {
            0 => lit(LiteralValue::Null),
            1 => match self.table[f] {
                0 => lit(LiteralValue::Boolean(false.into())),
                1 => lit(LiteralValue::Boolean(true.into())),
                _ => Err((5, s)),
            },
            2 => lit(LiteralValue::Int(i64::from_le_bytes(bytes8(self.table)).into())),
            3 => lit(LiteralValue::UInt(u64::from_le_bytes(bytes8(self.table)).into())),
            4 => lit(LiteralValue::Double(
                f64::from_bits(u64::from_le_bytes(bytes8(self.table))).into(),
            )),
            5 => lit(LiteralValue::String(CelString::from(self.string(f, s)?))),
            6 => lit(LiteralValue::Bytes(CelBytes::from(self.span(f, s)?.to_vec()))),
            7 => Ok(Expr::Ident(self.name(f, s)?)),
            _ => Ok(Expr::Unspecified),
        };
        let expr = expr?;
        // field checks of the records with operands
        match kind {
            8 if !(1..=3).contains(&self.table[f]) => return Err((5, s)),
            9 if !(1..=17).contains(&self.table[f]) => return Err((5, s)),
            11 => {
                if self.table[f] > 1 {
                    return Err((5, s));
                }
                self.string(f + 1, s)?;
            }
            15 => {
                self.name(f, s)?;
                self.name(f + 1, s)?;
            }
            16 if !(1..=6).contains(&self.table[f]) => return Err((5, s)),
            _ => {}
        }
        if kind == 14 && !may_mark {
            return Err((6, s));
        }
        if self.binding && !(kind <= 6 || kind == 12 || kind == 13) {
            return Err((9, s));
        }
        self.at = after;
        let mut ops = Vec::new();
        let n = match kind {
            8 | 11 | 14 => 1,
            9 => 2,
            10 => 3,
            12 => self.u16(f),
            13 => 2 * self.u16(f),
            15 => 5,
            16 => [1, 1, 0, 1, 1, 2][self.table[f] as usize - 1],
            _ => 0,
        };
        for i in 0..n {
            let may = kind == 12 || kind == 13 && i % 2 == 1;
            ops.push(self.record(stop, depth + 1, may)?);
        }
        if self.at != stop {
            return Err((3, s));
        }
        let mut it = ops.into_iter();
        let mut next = || it.next().expect("operand").0;
        let field = if n > 0 && f < self.table.len() { self.table[f] as usize } else { 0 };
        let id = self.id + 1;
        let e = match kind {
            8 => {
                let a = next();
                self.call(UNARY[field - 1], None, vec![a])
            }
            9 => {
                let (mut a, mut b) = (next(), next());
                match field {
                    5 | 6 => b = self.probe("@probe_key", b, id),
                    13..=16 => {
                        a = self.probe("@probe_nan", a, id);
                        b = self.probe("@probe_nan", b, id);
                    }
                    17 => {
                        a = self.probe("@probe_in_l", a, id);
                        b = self.probe("@probe_in_r", b, id);
                    }
                    _ => {}
                }
                self.call(BINARY[field - 1], None, vec![a, b])
            }
            10 => {
                let v = vec![next(), next(), next()];
                self.call(op::CONDITIONAL, None, v)
            }
            11 => {
                let operand = Box::new(next());
                let sel = SelectExpr {
                    operand,
                    field: self.string(f + 1, s)?,
                    test: field == 1,
                };
                self.node(Expr::Select(sel))
            }
            12 => {
                let (mut els, mut marks) = (Vec::new(), Vec::new());
                for (i, (e, m)) in it.enumerate() {
                    els.push(e);
                    if m {
                        marks.push(i)
                    }
                }
                self.node(Expr::List(ListExpr::new_with_optionals(els, marks)))
            }
            13 => {
                let mut entries = Vec::new();
                while let (Some((key, _)), Some((value, optional))) = (it.next(), it.next()) {
                    let key = self.probe("@probe_key", key, id);
                    self.id += 1;
                    entries.push(IdedEntryExpr {
                        id: self.id,
                        expr: EntryExpr::MapEntry(MapEntryExpr {
                            key,
                            value,
                            optional,
                        }),
                    });
                }
                self.node(Expr::Map(MapExpr { entries }))
            }
            14 => {
                let e = next();
                return Ok((e, true));
            }
            15 => {
                let range = next();
                let iter_range = self.probe("@probe_range", range, id);
                let c = ComprehensionExpr {
                    iter_range,
                    iter_var: self.name(f + 1, s)?,
                    iter_var2: None,
                    accu_var: self.name(f, s)?,
                    accu_init: next(),
                    loop_cond: next(),
                    loop_step: next(),
                    result: next(),
                };
                self.node(Expr::Comprehension(Box::new(c)))
            }
            16 => match self.table[f] {
                1 => {
                    let a = next();
                    self.call("size", None, vec![a])
                }
                2 | 3 => {
                    let (name, args) = if n == 1 { ("of", vec![next()]) } else { ("none", vec![]) };
                    let ns = self.node(Expr::Ident("optional".to_owned()));
                    self.call(name, Some(ns), args)
                }
                k => {
                    let t = next();
                    let name = ["hasValue", "value", "orValue"][k as usize - 4];
                    let args = if k == 6 { vec![next()] } else { vec![] };
                    self.call(name, Some(t), args)
                }
            },
            _ => self.node(expr),
        };
        Ok((e, false))
    }
}

/// The one expression that a table spells; `Refused N at PLACE` otherwise.
pub fn read(text: &[u8], table: &[u8], probes: bool, binding: bool) -> Result<IdedExpr, String> {
    let refused = |(no, at): Refusal| format!("Refused {no} at {at}");
    if table.is_empty() || table.len() > 16384 {
        return Err(refused((1, 0)));
    }
    let mut r = Reader {
        text,
        table,
        at: 0,
        id: 0,
        probes,
        binding,
    };
    let (e, _) = r.record(table.len(), 1, false).map_err(refused)?;
    if r.at != table.len() {
        return Err(refused((7, r.at)));
    }
    Ok(e)
}
