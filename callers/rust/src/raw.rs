//! The library's functions on slices, each as `include/ombravelik.h` has it. Each takes any numbers and any contents of what is lent.
//! The rest of the crate rests on these; they are for callers who hold the words themselves.
use crate::stack::reserve;

mod library {
    extern "C" {
        pub fn ombravelik_check(
            table: *const u8,
            table_bytes: usize,
            literal: *const u8,
            literal_bytes: usize,
            answer: *mut u64,
            answer_words: usize,
        ) -> u8;
        pub fn ombravelik_empty(state: *mut u64, state_words: usize) -> u8;
        pub fn ombravelik_bring_in(
            state: *mut u64,
            state_words: usize,
            binding_cells: *mut u64,
            binding_words: usize,
            binding_text: *mut u8,
            binding_bytes: usize,
            name: usize,
            table: *const u8,
            table_bytes: usize,
            literal: *const u8,
            literal_bytes: usize,
            answer: *mut u64,
            answer_words: usize,
        ) -> u8;
        pub fn ombravelik_evaluate(
            table: *const u8,
            table_bytes: usize,
            literal: *const u8,
            literal_bytes: usize,
            state: *const u64,
            state_words: usize,
            binding_cells: *const u64,
            binding_words: usize,
            binding_text: *const u8,
            binding_bytes: usize,
            cells: *mut u64,
            words: usize,
            text: *mut u8,
            bytes: usize,
            steps: usize,
            answer: *mut u64,
            answer_words: usize,
        ) -> u8;
        pub fn ombravelik_read(head: u64, payload: u64, shape: *mut u64, shape_words: usize) -> u8;
        pub fn ombravelik_element(
            binding_cells: *const u64,
            binding_words: usize,
            cells: *const u64,
            words: usize,
            head: u64,
            payload: u64,
            index: usize,
            part: *mut u64,
            part_words: usize,
        ) -> u8;
        pub fn ombravelik_key(
            binding_cells: *const u64,
            binding_words: usize,
            cells: *const u64,
            words: usize,
            head: u64,
            payload: u64,
            index: usize,
            part: *mut u64,
            part_words: usize,
        ) -> u8;
        pub fn ombravelik_value(
            binding_cells: *const u64,
            binding_words: usize,
            cells: *const u64,
            words: usize,
            head: u64,
            payload: u64,
            index: usize,
            part: *mut u64,
            part_words: usize,
        ) -> u8;
        pub fn ombravelik_present(
            binding_cells: *const u64,
            binding_words: usize,
            cells: *const u64,
            words: usize,
            head: u64,
            payload: u64,
            part: *mut u64,
            part_words: usize,
        ) -> u8;
    }
}

/// Whether a table is accepted: `DONE` or `REFUSED`, as it stands in the answer, or `NO_ROOM`.
pub fn check(table: &[u8], literal: &[u8], answer: &mut [u64]) -> u8 {
    reserve();
    // SAFETY: each slice is a pointer and its length; those lent for writing are lent to this call alone. The same goes for every call below.
    unsafe {
        library::ombravelik_check(
            table.as_ptr(),
            table.len(),
            literal.as_ptr(),
            literal.len(),
            answer.as_mut_ptr(),
            answer.len(),
        )
    }
}

/// Makes a state of no bindings: `DONE`, or `NO_ROOM` where the words are not exactly those of a state.
pub fn empty(state: &mut [u64]) -> u8 {
    reserve();
    // SAFETY: see `check`.
    unsafe { library::ombravelik_empty(state.as_mut_ptr(), state.len()) }
}

/// Brings the value that a table spells into a binding room, under a name that has none: `DONE`, `REFUSED` or `NO_ROOM`.
pub fn bring_in(
    state: &mut [u64],
    binding_cells: &mut [u64],
    binding_text: &mut [u8],
    name: usize,
    table: &[u8],
    literal: &[u8],
    answer: &mut [u64],
) -> u8 {
    reserve();
    // SAFETY: see `check`.
    unsafe {
        library::ombravelik_bring_in(
            state.as_mut_ptr(),
            state.len(),
            binding_cells.as_mut_ptr(),
            binding_cells.len(),
            binding_text.as_mut_ptr(),
            binding_text.len(),
            name,
            table.as_ptr(),
            table.len(),
            literal.as_ptr(),
            literal.len(),
            answer.as_mut_ptr(),
            answer.len(),
        )
    }
}

/// Evaluates a rule: `VALUE`, `ERROR`, `EXHAUSTED`, `REFUSED` or `NO_ROOM`.
#[allow(clippy::too_many_arguments)] // as many as the header has
pub fn evaluate(
    table: &[u8],
    literal: &[u8],
    state: &[u64],
    binding_cells: &[u64],
    binding_text: &[u8],
    cells: &mut [u64],
    text: &mut [u8],
    steps: usize,
    answer: &mut [u64],
) -> u8 {
    reserve();
    // SAFETY: see `check`.
    unsafe {
        library::ombravelik_evaluate(
            table.as_ptr(),
            table.len(),
            literal.as_ptr(),
            literal.len(),
            state.as_ptr(),
            state.len(),
            binding_cells.as_ptr(),
            binding_cells.len(),
            binding_text.as_ptr(),
            binding_text.len(),
            cells.as_mut_ptr(),
            cells.len(),
            text.as_mut_ptr(),
            text.len(),
            steps,
            answer.as_mut_ptr(),
            answer.len(),
        )
    }
}

/// What a value is, without its parts: its kind, or `NO_ROOM`.
pub fn read(head: u64, payload: u64, shape: &mut [u64]) -> u8 {
    // SAFETY: see `check`.
    unsafe { library::ombravelik_read(head, payload, shape.as_mut_ptr(), shape.len()) }
}

/// A function that gives a part by its index.
macro_rules! part {
    ($(#[$words:meta])* $name:ident, $function:ident) => {
        $(#[$words])*
        pub fn $name(
            binding_cells: &[u64],
            cells: &[u64],
            head: u64,
            payload: u64,
            index: usize,
            part: &mut [u64],
        ) -> u8 {
            // SAFETY: see `check`.
            unsafe {
                library::$function(
                    binding_cells.as_ptr(),
                    binding_cells.len(),
                    cells.as_ptr(),
                    cells.len(),
                    head,
                    payload,
                    index,
                    part.as_mut_ptr(),
                    part.len(),
                )
            }
        }
    };
}

part!(
    /// Element `index` of a List: the part's kind, `NOTHING` where there is none, or `NO_ROOM`.
    element,
    ombravelik_element
);
part!(
    /// The key of entry `index` of a Map.
    key,
    ombravelik_key
);
part!(
    /// The value of entry `index` of a Map.
    value,
    ombravelik_value
);

/// What a present Optional holds.
pub fn present(binding_cells: &[u64], cells: &[u64], head: u64, payload: u64, part: &mut [u64]) -> u8 {
    // SAFETY: see `check`.
    unsafe {
        library::ombravelik_present(
            binding_cells.as_ptr(),
            binding_cells.len(),
            cells.as_ptr(),
            cells.len(),
            head,
            payload,
            part.as_mut_ptr(),
            part.len(),
        )
    }
}
