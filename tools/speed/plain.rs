//! A plain Rust validator of the node table, written from docs/FORMAT.md: what `table_check::check` is timed against.

#[derive(Clone, Copy, PartialEq, Eq, Debug)]
pub struct Refusal {
    pub number: u8,
    pub place: usize,
}

const LONGEST_TABLE: usize = 16_384;
const RECORD_LEVELS: usize = 64;
const MARK: u8 = 14;

/// Bytes from a record's place to its first operand, by kind.
const HEADS: [usize; 17] = [3, 4, 11, 11, 11, 7, 7, 4, 4, 4, 3, 8, 5, 5, 3, 5, 4];

struct Validator<'a> {
    table: &'a [u8],
    text: &'a [u8],
}

impl Validator<'_> {
    fn word(&self, at: usize) -> usize {
        u16::from_le_bytes([self.table[at], self.table[at + 1]]) as usize
    }

    fn operand_count(&self, kind: u8, fields: usize) -> usize {
        match kind {
            8 | 11 | 14 => 1,
            9 => 2,
            10 => 3,
            12 => self.word(fields),
            13 => 2 * self.word(fields),
            15 => 5,
            16 => match self.table[fields] {
                3 => 0,
                6 => 2,
                _ => 1,
            },
            _ => 0,
        }
    }

    fn span(&self, at: usize) -> Option<&[u8]> {
        let offset = self.word(at);
        self.text.get(offset..offset + self.word(at + 2))
    }

    fn utf8(&self, at: usize) -> bool {
        self.span(at).is_some_and(|part| std::str::from_utf8(part).is_ok())
    }

    fn fields_fit(&self, kind: u8, at: usize) -> bool {
        match kind {
            1 => self.table[at] <= 1,
            5 => self.utf8(at),
            6 => self.span(at).is_some(),
            7 => self.table[at] < 128,
            8 => (1..=3).contains(&self.table[at]),
            9 => (1..=17).contains(&self.table[at]),
            11 => self.table[at] <= 1 && self.utf8(at + 1),
            15 => self.table[at] < 128 && self.table[at + 1] < 128,
            16 => (1..=6).contains(&self.table[at]),
            _ => true,
        }
    }

    /// Reads the record at a place, inside a parent that ends at another, and says where it ends.
    fn record(&self, at: usize, end: usize, levels: usize, may_mark: bool) -> Result<usize, Refusal> {
        let refused = |number| Err(Refusal { number, place: at });
        let Some(&kind) = self.table.get(at) else {
            return refused(3);
        };
        let Some(&head) = HEADS.get(kind as usize) else {
            return refused(2);
        };
        if at + head > end {
            return refused(3);
        }
        let extent = self.word(at + 1);
        let count = self.operand_count(kind, at + 3);
        if at + extent > end || extent < head || (count == 0 && extent != head) {
            return refused(3);
        }
        if levels == 0 {
            return refused(4);
        }
        if !self.fields_fit(kind, at + 3) {
            return refused(5);
        }
        if kind == MARK && !may_mark {
            return refused(6);
        }
        let mut next = at + head;
        for operand in 0..count {
            let may_mark = kind == 12 || (kind == 13 && operand % 2 == 1);
            next = self.record(next, at + extent, levels - 1, may_mark)?;
        }
        if next != at + extent {
            return refused(3);
        }
        Ok(next)
    }
}

pub fn check(table: &[u8], text: &[u8]) -> Result<(), Refusal> {
    if table.is_empty() || table.len() > LONGEST_TABLE {
        return Err(Refusal { number: 1, place: 0 });
    }
    let end = Validator { table, text }.record(0, table.len(), RECORD_LEVELS, false)?;
    if end != table.len() {
        return Err(Refusal { number: 7, place: end });
    }
    Ok(())
}
