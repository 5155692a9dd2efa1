//! The lines of `replay`, answered by the crate: `room`, `bind`, `empty`, `eval`; one line out for each bind and eval.
//! An answer has no place and no counts, for those are not the crate's; limits are not looked at.
use crate::probes::{env, DOUBLEKEY, FLAGS, MAPITER, NANORDER};
use crate::show::{number, show};
use crate::table::read;
use cel::common::value::Val;
use cel::{Context, Env, Value};
use std::cell::Cell;
use std::fmt::Write as _;
use std::sync::Arc;

pub struct Lines {
    env: Arc<Env>,
    scope: Context<'static, 'static>,
    bound: [bool; 128],
    number: usize,
    words: bool,
}

fn unhex(word: &str) -> Option<Vec<u8>> {
    if word == "-" {
        return Some(Vec::new());
    }
    let digits = word.as_bytes();
    let digit = |c: u8| (c as char).to_digit(16);
    if digits.len() % 2 != 0 {
        return None;
    }
    digits
        .chunks(2)
        .map(|pair| Some((digit(pair[0])? * 16 + digit(pair[1])?) as u8))
        .collect()
}

impl Lines {
    /// With `words`, an error is followed by the crate's own words.
    pub fn new(words: bool) -> Lines {
        let env = env();
        Lines {
            scope: Context::with_env(env.clone()),
            env,
            bound: [false; 128],
            number: 0,
            words,
        }
    }

    fn empty(&mut self) {
        self.scope = Context::with_env(self.env.clone());
        self.bound = [false; 128];
    }

    /// Puts the answer into `out`; false if the line has none.
    pub fn answer(&mut self, line: &str, out: &mut String) -> bool {
        self.number += 1;
        let words: Vec<&str> = line.split_ascii_whitespace().collect();
        let done = match words.as_slice() {
            ["room", _, _] | ["empty"] => {
                self.empty();
                return false;
            }
            ["bind", name, text, table] => self.bind(name, text, table, out),
            ["eval", _, _, _, text, table] => self.eval(text, table, out),
            _ => None,
        };
        if done.is_none() {
            out.clear();
            write!(out, "bad line {}", self.number).unwrap();
        }
        true
    }

    /// `ok`, or `no` where the name is taken or the table is none of a binding.
    fn bind(&mut self, name: &str, text: &str, table: &str, out: &mut String) -> Option<()> {
        let name: usize = name.parse().ok()?;
        let (text, table) = (unhex(text)?, unhex(table)?);
        let value = || -> Option<Box<dyn Val>> {
            let spelled = read(&text, &table, false, true).ok()?;
            let empty = Context::with_env(self.env.clone());
            // copied, so that it owns all it holds
            let value = Value::resolve_val(&spelled, &empty).ok()?;
            Value::try_from(value.as_ref()).ok()?.try_into().ok()
        };
        match (name < 128 && !self.bound[name]).then(value).flatten() {
            Some(value) => {
                self.scope.add_variable_as_val(format!("n{name}"), value);
                self.bound[name] = true;
                out.push_str("ok");
            }
            None => out.push_str("no"),
        }
        Some(())
    }

    fn eval(&self, text: &str, table: &str, out: &mut String) -> Option<()> {
        let (text, table) = (unhex(text)?, unhex(table)?);
        let rule = match read(&text, &table, false, false) {
            Ok(rule) => rule,
            Err(refused) => {
                out.push_str(&refused);
                return Some(());
            }
        };
        match Value::resolve_val(&rule, &self.scope) {
            Ok(value) => show(out, value.as_ref()),
            Err(error) => {
                write!(out, "Error {}", number(&error)).unwrap();
                if self.words || number(&error) == 0 {
                    write!(out, " # {}", format!("{error:?}").replace('\n', " ")).unwrap();
                }
            }
        }
        self.domain(&text, &table, out);
        Some(())
    }

    /// Runs once more with probes, and says how the run left the compared domain, if it did.
    fn domain(&self, text: &[u8], table: &[u8], out: &mut String) {
        FLAGS.with(|flags| flags.set(0));
        let probed = read(text, table, true, false).expect("read before");
        let _ = Value::resolve_val(&probed, &self.scope);
        let flags = FLAGS.with(Cell::get);
        if flags != 0 {
            out.push_str(" !");
        }
        for (bit, name) in [(MAPITER, " mapiter"), (DOUBLEKEY, " doublekey"), (NANORDER, " nanorder")] {
            if flags & bit != 0 {
                out.push_str(name);
            }
        }
    }
}
