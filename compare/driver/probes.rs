//! The environment, with functions that hand their operand on and note that a run left the compared domain:
//! mapiter (a map of two or more entries iterated), doublekey (a Double as index, map key or `in` a map), nanorder.
use cel::common::types::{CelDouble, CelInt, CelMap, DYN_TYPE};
use cel::common::value::{CowVal, Val};
use cel::{Env, ExecutionError};
use std::cell::{Cell, RefCell};
use std::sync::Arc;

thread_local! {
    pub static FLAGS: Cell<u8> = const { Cell::new(0) };
    static IN_LEFT: RefCell<std::collections::HashMap<i64, bool>> = RefCell::default();
}
pub const MAPITER: u8 = 1;
pub const DOUBLEKEY: u8 = 2;
pub const NANORDER: u8 = 4;

type Res<'b, 'v> = Result<CowVal<'b, 'v>, ExecutionError>;

fn flag(on: bool, f: u8) {
    if on {
        FLAGS.with(|c| c.set(c.get() | f));
    }
}
fn double(v: &dyn Val) -> Option<f64> {
    v.downcast_ref::<CelDouble>().map(|d| *d.inner())
}
fn map_len(v: &dyn Val) -> Option<usize> {
    v.downcast_ref::<CelMap>().map(|m| m.inner().len())
}
fn probe_range<'b, 'v>(mut a: Vec<CowVal<'b, 'v>>) -> Res<'b, 'v> {
    flag(map_len(a[0].as_ref()).is_some_and(|n| n >= 2), MAPITER);
    Ok(a.remove(0))
}
fn probe_key<'b, 'v>(mut a: Vec<CowVal<'b, 'v>>) -> Res<'b, 'v> {
    flag(double(a[0].as_ref()).is_some(), DOUBLEKEY);
    Ok(a.remove(0))
}
fn probe_nan<'b, 'v>(mut a: Vec<CowVal<'b, 'v>>) -> Res<'b, 'v> {
    flag(double(a[0].as_ref()).is_some_and(f64::is_nan), NANORDER);
    Ok(a.remove(0))
}
fn node_id(a: &[CowVal<'_, '_>]) -> i64 {
    *a[1].downcast_ref::<CelInt>().expect("id").inner()
}
fn probe_in_l<'b, 'v>(mut a: Vec<CowVal<'b, 'v>>) -> Res<'b, 'v> {
    let is = double(a[0].as_ref()).is_some();
    IN_LEFT.with(|m| m.borrow_mut().insert(node_id(&a), is));
    Ok(a.remove(0))
}
fn probe_in_r<'b, 'v>(mut a: Vec<CowVal<'b, 'v>>) -> Res<'b, 'v> {
    let left = IN_LEFT.with(|m| m.borrow().get(&node_id(&a)).copied());
    flag(left == Some(true) && map_len(a[0].as_ref()).is_some(), DOUBLEKEY);
    Ok(a.remove(0))
}

pub fn env() -> Arc<Env> {
    let mut env = Env::stdlib().with_duplicate_map_key_errors(true);
    let two = || vec![DYN_TYPE, DYN_TYPE];
    for (name, f) in [
        ("@probe_range", probe_range as cel::common::functions::Function),
        ("@probe_key", probe_key),
        ("@probe_nan", probe_nan),
        ("@probe_in_l", probe_in_l),
        ("@probe_in_r", probe_in_r),
    ] {
        env.add_overload(name, name, two(), f).unwrap();
    }
    Arc::new(env)
}
