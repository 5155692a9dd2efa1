//! Stack for a call. Before a call the stack that it can need is touched here in small steps. Where it is not there, the thread ends at its guard
//! page, like a thread in which any Rust function overflows its stack. (The library that the kit compiles touches the pages of its frames too.
//! Nothing promises that, and nothing here relies on it.) What a thread has touched once is remembered, so a call costs one comparison.
use std::cell::Cell;
use std::hint::black_box;

/// The most that a call takes, in bytes: a rule of 64 records inside one another takes less than 1,200 KiB (docs/FORMAT.md, "Stack").
pub const STACK_BYTES: usize = 1_280 * 1_024;

/// Less than a page.
const PIECE: usize = 1_024;

thread_local! {
    /// The addresses that this thread has touched, from the lowest to the highest.
    static TOUCHED: Cell<(usize, usize)> = const { Cell::new((0, 0)) };
}

#[inline(never)]
fn touch_down_to(lowest: usize) {
    let mut piece = [0u8; PIECE];
    black_box(&mut piece);
    if piece.as_ptr() as usize > lowest {
        touch_down_to(lowest);
    }
    black_box(&mut piece);
}

/// Makes sure that a call has its stack.
pub(crate) fn reserve() {
    let mark = 0u8;
    let here = std::ptr::from_ref(black_box(&mark)) as usize;
    let lowest = here.saturating_sub(STACK_BYTES);
    TOUCHED.with(|touched| {
        let (from, to) = touched.get();
        if from <= lowest && here <= to {
            return;
        }
        touch_down_to(lowest);
        let joined = lowest <= to && from <= here;
        touched.set(if joined { (from.min(lowest), to.max(here)) } else { (lowest, here) });
    });
}
