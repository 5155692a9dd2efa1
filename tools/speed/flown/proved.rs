//! The proved evaluator through its C interface (include/ombravelik.h), over rooms of the largest size.
use crate::cases::{Case, Spelled};

extern "C" {
    fn ombravelik_check(table: *const u8, n: usize, literal: *const u8, m: usize, answer: *mut u64, words: usize) -> u8;
    fn ombravelik_empty(state: *mut u64, words: usize) -> u8;
    #[rustfmt::skip]
    fn ombravelik_bring_in(state: *mut u64, s: usize, cells: *mut u64, c: usize, text: *mut u8, t: usize, name: usize, table: *const u8, n: usize, literal: *const u8, m: usize, answer: *mut u64, words: usize) -> u8;
    #[rustfmt::skip]
    fn ombravelik_evaluate(table: *const u8, n: usize, literal: *const u8, m: usize, state: *const u64, s: usize, binding_cells: *const u64, bc: usize, binding_text: *const u8, bt: usize, cells: *mut u64, c: usize, text: *mut u8, t: usize, steps: usize, answer: *mut u64, words: usize) -> u8;
    fn ombravelik_read(head: u64, payload: u64, shape: *mut u64, words: usize) -> u8;
    #[rustfmt::skip]
    fn ombravelik_element(binding_cells: *const u64, bc: usize, cells: *const u64, c: usize, head: u64, payload: u64, index: usize, part: *mut u64, words: usize) -> u8;
}

const STATE: usize = 259;
const ANSWER: usize = 8;
const STEPS: usize = 1_000_000;
/// The names are 0 to 127.
const NO_NAME: usize = 128;

pub struct Proved {
    rule: Spelled,
    state: Vec<u64>,
    binding_cells: Vec<u64>,
    binding_text: Vec<u8>,
    cells: Vec<u64>,
    text: Vec<u8>,
    answer: [u64; ANSWER],
}

impl Proved {
    pub fn of(case: &Case) -> Proved {
        let rule = Spelled { table: case.rule.table.clone(), text: case.rule.text.clone() };
        let mut made = Proved {
            rule,
            state: vec![0; STATE],
            binding_cells: vec![0; 8192],
            binding_text: vec![0; 16384],
            cells: vec![0; 8192],
            text: vec![0; 16384],
            answer: [0; ANSWER],
        };
        assert_eq!(unsafe { ombravelik_empty(made.state.as_mut_ptr(), STATE) }, 0);
        for (name, value) in &case.bindings {
            assert_eq!(made.bring_in(*name, value), 0, "a binding: {:?}", made.answer);
        }
        made
    }

    fn bring_in(&mut self, name: usize, value: &Spelled) -> u8 {
        unsafe {
            ombravelik_bring_in(
                self.state.as_mut_ptr(), STATE, self.binding_cells.as_mut_ptr(), self.binding_cells.len(), self.binding_text.as_mut_ptr(), self.binding_text.len(),
                name, value.table.as_ptr(), value.table.len(), value.text.as_ptr(), value.text.len(), self.answer.as_mut_ptr(), ANSWER,
            )
        }
    }

    /// The binding room is checked; then there is no such name, and nothing is brought in.
    pub fn check_room(&mut self) -> u8 {
        self.bring_in(NO_NAME, &Spelled { table: Vec::new(), text: Vec::new() })
    }

    pub fn check(&mut self) -> u8 {
        let rule = &self.rule;
        unsafe { ombravelik_check(rule.table.as_ptr(), rule.table.len(), rule.text.as_ptr(), rule.text.len(), self.answer.as_mut_ptr(), ANSWER) }
    }

    pub fn evaluate(&mut self) -> u8 {
        let rule = &self.rule;
        unsafe {
            ombravelik_evaluate(
                rule.table.as_ptr(), rule.table.len(), rule.text.as_ptr(), rule.text.len(), self.state.as_ptr(), STATE, self.binding_cells.as_ptr(),
                self.binding_cells.len(), self.binding_text.as_ptr(), self.binding_text.len(), self.cells.as_mut_ptr(), self.cells.len(),
                self.text.as_mut_ptr(), self.text.len(), STEPS, self.answer.as_mut_ptr(), ANSWER,
            )
        }
    }

    /// Spelled as the crate's answers are (compare/driver/show.rs).
    pub fn answer(&mut self) -> String {
        assert_eq!((self.check(), self.check_room(), self.answer[1]), (0, 4, 5), "a room that is sound, and no such name");
        match self.evaluate() {
            1 => self.shown(self.answer[6], self.answer[7]),
            2 => format!("Error {}", self.answer[1]),
            other => format!("answer {other}: {:?}", self.answer),
        }
    }

    /// What an evaluation is charged.
    pub fn steps(&mut self) -> u64 {
        self.evaluate();
        self.answer[3]
    }

    fn shown(&self, head: u64, payload: u64) -> String {
        let mut shape = [0; 6];
        let kind = unsafe { ombravelik_read(head, payload, shape.as_mut_ptr(), 6) };
        let [_, number, space, first, length, count] = shape;
        match kind {
            0 => "Null".to_owned(),
            1 => format!("Bool {}", number == 1),
            2 => format!("Int {}", number as i64),
            3 => format!("Uint {number}"),
            4 => format!("Double 0x{number:016X}"),
            5 => format!("String \"{}\"", self.text_at(space, first as usize, length as usize)),
            12 => format!("List [{}]", (0..count as usize).map(|index| self.element(head, payload, index)).collect::<Vec<_>>().join(", ")),
            other => format!("kind {other}"),
        }
    }

    fn text_at(&self, space: u64, first: usize, length: usize) -> &str {
        let whole = [&self.rule.text, &self.binding_text, &self.text][space as usize];
        std::str::from_utf8(&whole[first..first + length]).expect("text")
    }

    fn element(&self, head: u64, payload: u64, index: usize) -> String {
        let mut part = [0; 2];
        unsafe {
            ombravelik_element(
                self.binding_cells.as_ptr(), self.binding_cells.len(), self.cells.as_ptr(), self.cells.len(), head, payload, index, part.as_mut_ptr(), 2,
            )
        };
        self.shown(part[0], part[1])
    }
}
