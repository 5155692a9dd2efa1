//! What the tests share: records put together to tables, and evaluations in rooms that are watched.
#![allow(dead_code)] // each test uses a part of it
pub mod damage;

use ombravelik::constants::{ANSWER_WORDS, STATE_WORDS};
use ombravelik::{evaluate, raw, Answer, Bindings, Counts, Error, Limit, Owned, Refusal, Room, Rule};

/// A record: its kind, the fields behind its extent, the text that a span behind them points at, its operands.
#[derive(Clone)]
pub struct Node {
    kind: u8,
    fields: Vec<u8>,
    span: Option<Vec<u8>>,
    operands: Vec<Node>,
}

pub fn node(kind: u8, fields: &[u8], operands: &[Node]) -> Node {
    Node { kind, fields: fields.into(), span: None, operands: operands.into() }
}

fn spanning(kind: u8, fields: &[u8], span: &[u8], operands: &[Node]) -> Node {
    Node { span: Some(span.into()), ..node(kind, fields, operands) }
}

pub fn null() -> Node {
    node(0, &[], &[])
}

pub fn boolean(truth: bool) -> Node {
    node(1, &[truth.into()], &[])
}

pub fn int(number: i64) -> Node {
    node(2, &number.to_le_bytes(), &[])
}

pub fn uint(number: u64) -> Node {
    node(3, &number.to_le_bytes(), &[])
}

pub fn double(number: f64) -> Node {
    node(4, &number.to_bits().to_le_bytes(), &[])
}

pub fn string(text: &str) -> Node {
    spanning(5, &[], text.as_bytes(), &[])
}

pub fn bytes(bytes: &[u8]) -> Node {
    spanning(6, &[], bytes, &[])
}

pub fn name(number: u8) -> Node {
    node(7, &[number], &[])
}

pub fn unary(operator: &str, operand: Node) -> Node {
    let operators = ["!", "-", "not-strictly-false"];
    node(8, &[number_in(&operators, operator)], &[operand])
}

pub fn binary(operator: &str, left: Node, right: Node) -> Node {
    let operators = ["||", "&&", "==", "!=", "[]", "[?]", ".?", "+", "-", "/", "*", "%", "<", "<=", ">", ">=", "in"];
    node(9, &[number_in(&operators, operator)], &[left, right])
}

pub fn conditional(condition: Node, if_true: Node, if_false: Node) -> Node {
    node(10, &[], &[condition, if_true, if_false])
}

pub fn select(operand: Node, field: &str) -> Node {
    spanning(11, &[0], field.as_bytes(), &[operand])
}

pub fn list(elements: &[Node]) -> Node {
    node(12, &(elements.len() as u16).to_le_bytes(), elements)
}

pub fn map(entries: &[(Node, Node)]) -> Node {
    let parts: Vec<Node> = entries.iter().flat_map(|(key, value)| [key.clone(), value.clone()]).collect();
    node(13, &(entries.len() as u16).to_le_bytes(), &parts)
}

pub fn mark(operand: Node) -> Node {
    node(14, &[], &[operand])
}

/// `parts` are the range, init, condition, step and result.
pub fn comprehension(accumulator: u8, item: u8, parts: [Node; 5]) -> Node {
    node(15, &[accumulator, item], &parts)
}

pub fn function(called: &str, operands: &[Node]) -> Node {
    let functions = ["size", "optional.of", "optional.none", "hasValue", "value", "orValue"];
    node(16, &[number_in(&functions, called)], operands)
}

fn number_in(words: &[&str], word: &str) -> u8 {
    words.iter().position(|other| *other == word).expect("an operator") as u8 + 1
}

/// A table with its literal text.
#[derive(Clone, Default)]
pub struct Table {
    pub table: Vec<u8>,
    pub literal: Vec<u8>,
}

impl Table {
    pub fn rule(&self) -> Rule<'_> {
        Rule::new(&self.table, &self.literal)
    }

    fn put(&mut self, node: &Node) {
        let place = self.table.len();
        self.table.extend([node.kind, 0, 0]);
        self.table.extend(&node.fields);
        if let Some(span) = &node.span {
            self.table.extend((self.literal.len() as u16).to_le_bytes());
            self.table.extend((span.len() as u16).to_le_bytes());
            self.literal.extend(span);
        }
        node.operands.iter().for_each(|operand| self.put(operand));
        let extent = (self.table.len() - place) as u16;
        self.table[place + 1..place + 3].copy_from_slice(&extent.to_le_bytes());
    }
}

pub fn table(node: &Node) -> Table {
    let mut table = Table::default();
    table.put(node);
    table
}

/// An answer whose value is read out.
#[derive(Clone, Debug, PartialEq)]
pub enum Said {
    Value(Owned, Counts),
    Error(Error, usize, Counts),
    Exhausted(Limit, Counts),
    Refused(Refusal),
}

pub fn said(answer: Answer<'_>) -> Said {
    match answer {
        Answer::Value { value, counts } => Said::Value(value.copied(100_000).expect("a small value"), counts),
        Answer::Error { error, place, counts } => Said::Error(error, place, counts),
        Answer::Exhausted { limit, counts } => Said::Exhausted(limit, counts),
        Answer::Refused(refusal) => Said::Refused(refusal),
    }
}

pub fn counts(steps: usize, cells: usize, bytes: usize) -> Counts {
    Counts { steps, cells, bytes }
}

/// What a rule answers without bindings, in rooms that are large enough.
pub fn answer(node: &Node) -> Said {
    answer_within(node, 1_000_000)
}

pub fn answer_within(node: &Node, steps: usize) -> Said {
    let bindings = Bindings::<0, 0>::new();
    said(evaluate(table(node).rule(), &bindings, &mut Room::<4096, 16384>::new(), steps))
}

/// The value of a rule without bindings.
pub fn value(node: &Node) -> Owned {
    match answer(node) {
        Said::Value(value, _) => value,
        other => panic!("{other:?}"),
    }
}

/// What is lent to one evaluation on raw slices, of any contents.
#[derive(Clone, PartialEq, Debug)]
pub struct Slices {
    pub state: Vec<u64>,
    pub binding_cells: Vec<u64>,
    pub binding_text: Vec<u8>,
    pub cells: Vec<u64>,
    pub text: Vec<u8>,
    pub answer: Vec<u64>,
}

pub const BEFORE: u64 = 0xA5A5_A5A5_A5A5_A5A5;

impl Slices {
    /// The state of no bindings, and rooms with something in them.
    pub fn new(binding_words: usize, binding_bytes: usize, words: usize, bytes: usize) -> Slices {
        let mut state = vec![0; STATE_WORDS];
        raw::empty(&mut state);
        Slices {
            state,
            binding_cells: vec![BEFORE; binding_words],
            binding_text: vec![0xA5; binding_bytes],
            cells: vec![BEFORE; words],
            text: vec![0xA5; bytes],
            answer: vec![BEFORE; ANSWER_WORDS],
        }
    }

    pub fn bring_in(&mut self, name: usize, rule: Rule<'_>) -> u8 {
        raw::bring_in(
            &mut self.state,
            &mut self.binding_cells,
            &mut self.binding_text,
            name,
            rule.table,
            rule.literal,
            &mut self.answer,
        )
    }

    pub fn evaluate(&mut self, rule: Rule<'_>, steps: usize) -> u8 {
        raw::evaluate(
            rule.table,
            rule.literal,
            &self.state,
            &self.binding_cells,
            &self.binding_text,
            &mut self.cells,
            &mut self.text,
            steps,
            &mut self.answer,
        )
    }
}
