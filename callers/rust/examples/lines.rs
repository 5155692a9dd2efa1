//! Reads lines from standard input, does what they say, and writes an answer for each but the first:
//!
//! ```text
//! empty                                  no name is bound
//! bind NAME TEXT TABLE                   ok, or the refusal's number and place
//! eval STEPS CELLS BYTES TEXT TABLE      the answer
//! ```
//!
//! TEXT and TABLE are in hexadecimal digits, `-` for none. `callers/lines.py` compares the answers with those of the independent model in `tools/rules`.
use ombravelik::{evaluate_in, Answer, Bindings, Counts, Limit, Room, Rule, Shape, Value};
use std::fmt::Write;
use std::io::{BufRead, Result};

fn unhexed(word: &str) -> Vec<u8> {
    let digits = if word == "-" { "" } else { word };
    let byte = |at| u8::from_str_radix(&digits[at..at + 2], 16).expect("hexadecimal digits");
    (0..digits.len()).step_by(2).map(byte).collect()
}

fn number(word: &str) -> usize {
    word.parse().expect("a number")
}

fn quoted(out: &mut String, bytes: &[u8]) {
    out.push('"');
    for byte in bytes {
        match byte {
            b'"' | b'\\' | 0..=0x1F | 0x7F.. => write!(out, "\\x{byte:02X}").unwrap(),
            _ => out.push(char::from(*byte)),
        }
    }
    out.push('"');
}

/// A value with its kinds, walked where it lies.
fn show(out: &mut String, value: Value<'_>) {
    match value.shape() {
        Shape::Null => out.push_str("Null"),
        Shape::Bool(truth) => write!(out, "Bool {truth}").unwrap(),
        Shape::Int(number) => write!(out, "Int {number}").unwrap(),
        Shape::Uint(number) => write!(out, "Uint {number}").unwrap(),
        Shape::Double(number) => write!(out, "Double 0x{:016X}", number.to_bits()).unwrap(),
        Shape::String(text) => {
            out.push_str("String ");
            quoted(out, text.as_bytes());
        }
        Shape::Bytes(bytes) => {
            out.push_str("Bytes ");
            quoted(out, bytes);
        }
        Shape::List(list) => {
            out.push_str("List [");
            for (index, element) in list.iter().enumerate() {
                out.push_str(if index == 0 { "" } else { ", " });
                show(out, element);
            }
            out.push(']');
        }
        Shape::Map(map) => {
            out.push_str("Map {");
            for (index, (key, value)) in map.iter().enumerate() {
                out.push_str(if index == 0 { "" } else { ", " });
                show(out, key);
                out.push_str(": ");
                show(out, value);
            }
            out.push('}');
        }
        Shape::Optional(None) => out.push_str("Optional none"),
        Shape::Optional(Some(part)) => {
            out.push_str("Optional of ");
            show(out, part);
        }
    }
}

fn counted(out: &mut String, counts: Counts) {
    write!(out, " steps {} cells {} bytes {}", counts.steps, counts.cells, counts.bytes).unwrap();
}

fn line(answer: Answer<'_>) -> String {
    let mut out = String::new();
    match answer {
        Answer::Value { value, counts } => {
            show(&mut out, value);
            counted(&mut out, counts);
        }
        Answer::Error { error, place, counts } => {
            write!(out, "Error {} at {place}", error.number()).unwrap();
            counted(&mut out, counts);
        }
        Answer::Exhausted { limit, counts } => {
            let limit = match limit {
                Limit::Steps => "Steps",
                Limit::Cells => "Cells",
                Limit::Text => "Text",
                Limit::Nesting => "Nesting",
            };
            write!(out, "Exhausted {limit}").unwrap();
            counted(&mut out, counts);
        }
        Answer::Refused(refusal) => write!(out, "Refused {} at {}", refusal.reason.number(), refusal.place).unwrap(),
    }
    out
}

fn main() -> Result<()> {
    let mut bindings: Box<Bindings> = Box::default();
    let mut room: Box<Room> = Box::default();
    for asked in std::io::stdin().lock().lines() {
        let asked = asked?;
        let words: Vec<&str> = asked.split(' ').collect();
        match words[..] {
            ["empty"] => bindings.clear(),
            ["bind", name, text, table] => {
                let (table, text) = (unhexed(table), unhexed(text));
                match bindings.bring_in(number(name), Rule::new(&table, &text)) {
                    Ok(()) => println!("ok"),
                    Err(refusal) => println!("{} {}", refusal.reason.number(), refusal.place),
                }
            }
            ["eval", steps, cells, bytes, text, table] => {
                let (table, text) = (unhexed(table), unhexed(text));
                let (cells, bytes) = (number(cells).min(room.cells.len()), number(bytes).min(room.text.len()));
                let Room { cells: all, text: whole } = &mut *room;
                let rule = Rule::new(&table, &text);
                let answer = evaluate_in(rule, &bindings, &mut all[..cells], &mut whole[..bytes], number(steps));
                println!("{}", line(answer));
            }
            _ => panic!("no such line: {asked}"),
        }
    }
    Ok(())
}
