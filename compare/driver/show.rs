//! A value as `ask` prints it, but for the order of a map's entries, which are sorted; and document 01's error numbers.
use cel::common::types::{
    CelBool, CelBytes, CelDouble, CelInt, CelList, CelMap, CelMapKey, CelNull, CelOptional,
    CelString, CelUInt,
};
use cel::common::value::Val;
use cel::ExecutionError;
use std::fmt::Write as _;

fn quoted(out: &mut String, bytes: &[u8]) {
    out.push('"');
    for byte in bytes {
        match byte {
            b'"' | b'\\' | 0..=0x1F | 0x7F.. => write!(out, "\\x{byte:02X}").unwrap(),
            _ => out.push(char::from(*byte)),
        }
    }
    out.push('"');
}

pub fn show(out: &mut String, v: &dyn Val) {
    if let Some(b) = v.downcast_ref::<CelBool>() {
        write!(out, "Bool {}", b.inner()).unwrap();
    } else if let Some(i) = v.downcast_ref::<CelInt>() {
        write!(out, "Int {}", i.inner()).unwrap();
    } else if let Some(u) = v.downcast_ref::<CelUInt>() {
        write!(out, "Uint {}", u.inner()).unwrap();
    } else if let Some(d) = v.downcast_ref::<CelDouble>() {
        write!(out, "Double 0x{:016X}", d.inner().to_bits()).unwrap();
    } else if let Some(s) = v.downcast_ref::<CelString>() {
        out.push_str("String ");
        quoted(out, s.inner().as_bytes());
    } else if let Some(b) = v.downcast_ref::<CelBytes>() {
        out.push_str("Bytes ");
        quoted(out, b.inner());
    } else if v.downcast_ref::<CelNull>().is_some() {
        out.push_str("Null");
    } else if let Some(l) = v.downcast_ref::<CelList>() {
        out.push_str("List [");
        for (i, e) in l.inner().iter().enumerate() {
            if i > 0 {
                out.push_str(", ");
            }
            show(out, e.as_ref());
        }
        out.push(']');
    } else if let Some(m) = v.downcast_ref::<CelMap>() {
        // sorted by key: Ints, Uints, Bools, Strings, each in their order
        let mut entries: Vec<(&CelMapKey, &Box<dyn Val>)> = m.inner().iter().collect();
        entries.sort_by(|a, b| a.0.cmp(b.0));
        out.push_str("Map {");
        for (i, (k, e)) in entries.into_iter().enumerate() {
            if i > 0 {
                out.push_str(", ");
            }
            show(out, k.inner());
            out.push_str(": ");
            show(out, e.as_ref());
        }
        out.push('}');
    } else if let Some(o) = v.downcast_ref::<CelOptional>() {
        match o.option() {
            None => out.push_str("Optional none"),
            Some(v) => {
                out.push_str("Optional of ");
                show(out, v);
            }
        }
    } else {
        write!(out, "Other {v:?}").unwrap();
    }
}

pub fn number(e: &ExecutionError) -> u8 {
    use ExecutionError::*;
    match e {
        UndeclaredReference(_) => 1,
        UnexpectedType { want, .. } if want == "bool" => 2,
        NoSuchOverload(_) | UnsupportedBinaryOperator(..) => 3,
        FunctionError { .. } => 4,
        NoSuchKey(_) => 5,
        Overflow(..) => 6,
        DivisionByZero(_) => 7,
        RemainderByZero(_) => 8,
        DuplicateKey(_) => 9,
        IndexOutOfBounds(_) => 10,
        UnsupportedKeyType(_) => 11,
        ValuesNotComparable(..) => 12,
        UnexpectedType { want, .. } if want == "iterable" => 13,
        _ => 0, // outside document 01's list: must not happen
    }
}
