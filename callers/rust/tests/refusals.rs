//! Every refusal, of tables, bindings and binding rooms.
mod common;
use common::*;
use ombravelik::constants::{MOST_TABLE_BYTES, REFUSED};
use ombravelik::{evaluate, Bindings, Reason, Refusal, Room, Rule};

fn refused(reason: Reason, place: usize) -> Result<(), Refusal> {
    Err(Refusal { reason, place })
}

/// Tables with their literal text, and what they are refused for.
fn tables() -> Vec<(Vec<u8>, &'static [u8], Reason, usize)> {
    let nots = |levels| (1..levels).fold(boolean(true), |inner, _| unary("!", inner));
    vec![
        (vec![], b"", Reason::TableLength, 0),
        (vec![0; MOST_TABLE_BYTES + 1], b"", Reason::TableLength, 0),
        (vec![17, 3, 0], b"", Reason::UnknownKind, 0),
        (vec![8, 4, 0, 1, 255], b"", Reason::UnknownKind, 4),
        (vec![8, 4, 0, 1], b"", Reason::WrongExtent, 4),
        (vec![8, 3, 0, 1, 1, 4, 0, 1], b"", Reason::WrongExtent, 0),
        (vec![8, 8, 0, 1, 0, 3, 0, 0], b"", Reason::WrongExtent, 0),
        (vec![0, 3], b"", Reason::WrongExtent, 0),
        (table(&nots(65)).table, b"", Reason::RecordNesting, 256),
        (vec![16, 5, 0, 7, 0], b"", Reason::WrongField, 0),
        (vec![1, 4, 0, 2], b"", Reason::WrongField, 0),
        (vec![7, 4, 0, 128], b"", Reason::WrongField, 0),
        (vec![5, 7, 0, 1, 0, 0, 0], b"", Reason::WrongField, 0),
        (vec![5, 7, 0, 0, 0, 1, 0], b"\xFF", Reason::WrongField, 0),
        (table(&mark(null())).table, b"", Reason::MisplacedMark, 0),
        (table(&unary("!", mark(null()))).table, b"", Reason::MisplacedMark, 4),
        (vec![0, 3, 0, 0], b"", Reason::BytesAfterRoot, 3),
    ]
}

#[test]
fn tables_are_refused_by_the_check_the_evaluation_and_the_bindings() {
    let mut seen = Vec::new();
    for (table, literal, reason, place) in tables() {
        let rule = Rule::new(&table, literal);
        assert_eq!(rule.check(), refused(reason, place));
        let mut bindings = Bindings::<4, 4>::new();
        let said = said(evaluate(rule, &bindings, &mut Room::<4, 4>::new(), 100));
        assert_eq!(said, Said::Refused(Refusal { reason, place }));
        assert_eq!(bindings.bring_in(0, rule), refused(reason, place));
        assert_eq!(bindings, Bindings::new());
        seen.push(reason);
    }
    seen.dedup();
    assert_eq!(seen, Reason::ALL[..7]);
}

#[test]
fn bindings_are_refused() {
    let mut bindings = Bindings::<4, 4>::new();
    bindings.bring_in(3, table(&list(&[string("ab"), int(2)])).rule()).unwrap();
    let before = bindings.clone();
    let nested = (0..32).fold(list(&[]), |inner, _| list(&[inner]));
    let cases = [
        (128, null(), Reason::WrongField, 0),
        (usize::MAX, null(), Reason::WrongField, 0),
        (3, null(), Reason::NameBound, 0),
        (4, list(&[null(), name(1)]), Reason::NotALiteral, 8),
        (4, function("optional.none", &[]), Reason::NotALiteral, 0),
        (4, list(&[mark(null())]), Reason::NotALiteral, 5),
        (4, map(&[(null(), null())]), Reason::UnsoundBinding, 5),
        (4, map(&[(int(1), null()), (uint(1), null())]), Reason::UnsoundBinding, 19),
        (4, nested, Reason::UnsoundBinding, 0),
        (4, list(&[null(), null(), null()]), Reason::BindingRoomFull, 0),
        (4, map(&[(int(1), null()), (int(2), null())]), Reason::BindingRoomFull, 0),
        (4, string("abc"), Reason::BindingRoomFull, 0),
    ];
    for (name, node, reason, place) in cases {
        assert_eq!(bindings.bring_in(name, table(&node).rule()), refused(reason, place));
        assert_eq!(bindings, before);
    }
    bindings.bring_in(4, table(&map(&[(int(1), bytes(b"cd"))])).rule()).unwrap();
    assert_eq!((bindings.used_cells(), bindings.used_bytes()), (4, 4));
}

/// The refusals in their order: each of these faults hides the next.
#[test]
fn of_several_faults_the_first_is_told() {
    let bad_table = [17, 3, 0];
    let mut slices = Slices::new(2, 0, 0, 0);
    assert_eq!(slices.bring_in(1, table(&null()).rule()), 0);
    let number = |slices: &mut Slices, name, rule: Rule<'_>| {
        assert_eq!(slices.bring_in(name, rule), REFUSED);
        slices.answer[1]
    };
    let both_wrong = table(&list(&[map(&[(null(), null())]), name(0)]));
    let wrong_key = table(&map(&[(null(), null()), (null(), null())]));
    let too_large = table(&list(&[null(), null()]));
    assert_eq!(number(&mut slices, 128, Rule::new(&bad_table, &[])), 5);
    assert_eq!(number(&mut slices, 1, Rule::new(&bad_table, &[])), 11);
    assert_eq!(number(&mut slices, 2, Rule::new(&bad_table, &[])), 2);
    assert_eq!(number(&mut slices, 2, both_wrong.rule()), 9);
    assert_eq!(number(&mut slices, 2, wrong_key.rule()), 8);
    assert_eq!(number(&mut slices, 2, too_large.rule()), 10);
    slices.state[258] = 0;
    assert_eq!(number(&mut slices, 128, Rule::new(&bad_table, &[])), 8);
    // an evaluation judges the table first
    assert_eq!(slices.evaluate(Rule::new(&bad_table, &[]), 9), REFUSED);
    assert_eq!(slices.answer[1], 2);
    assert_eq!(slices.evaluate(table(&null()).rule(), 9), REFUSED);
    assert_eq!(slices.answer[1], 8);
}

#[test]
fn a_refusal_says_what_it_is() {
    let refusal = Rule::new(&[8, 4, 0, 1], &[]).check().unwrap_err();
    assert_eq!(refusal.to_string(), "refused: a record that does not fit (3) at 4");
    for (index, reason) in Reason::ALL.iter().enumerate() {
        assert_eq!(Reason::of_number(index as u64 + 1), Some(*reason));
        assert!(!reason.to_string().is_empty());
    }
    assert_eq!((Reason::of_number(0), Reason::of_number(12)), (None, None));
}
