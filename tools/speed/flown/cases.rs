//! The cases that `flown.py` writes.

pub struct Case {
    /// Group, label and size, as the report takes them apart.
    pub label: String,
    pub bindings: Vec<(usize, Spelled)>,
    pub rule: Spelled,
}

/// A table and the literal text beside it.
#[derive(Default)]
pub struct Spelled {
    pub table: Vec<u8>,
    pub text: Vec<u8>,
}

fn unhex(word: &str) -> Vec<u8> {
    if word == "-" {
        return Vec::new();
    }
    (0..word.len()).step_by(2).map(|at| u8::from_str_radix(&word[at..at + 2], 16).expect("digits")).collect()
}

fn spelled(words: &str) -> Spelled {
    let (text, table) = words.split_once(' ').expect("a text and a table");
    Spelled { table: unhex(table), text: unhex(text) }
}

pub fn read(path: &str) -> Vec<Case> {
    let lines = std::fs::read_to_string(path).expect("the cases");
    let mut cases: Vec<Case> = Vec::new();
    for line in lines.lines() {
        let (word, rest) = line.split_once(' ').expect("a line");
        if word == "case" {
            cases.push(Case { label: rest.to_owned(), bindings: Vec::new(), rule: Spelled::default() });
            continue;
        }
        let case = cases.last_mut().expect("a case");
        if word == "bind" {
            let (name, value) = rest.split_once(' ').expect("a name");
            case.bindings.push((name.parse().expect("a number"), spelled(value)));
        } else {
            case.rule = spelled(rest);
        }
    }
    cases
}
