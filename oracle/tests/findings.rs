//! Findings of traits: class, slot, span, a and b.

use oracle::answer::{answer, Answer, PROGRAM_PLACES};
use oracle::bench::cases::wide_report;
use oracle::format::Edition;
use oracle::model::{
    declared, field, generic, message, wrap, Impl, Schema, Slot, Tree, OPTIONAL, U32, U8,
};

fn findings(schema: &Schema) -> Vec<u32> {
    match answer(&schema.bytes(Edition::One), Edition::One, PROGRAM_PLACES) {
        Ok(Answer::Accepted { findings, .. }) => findings,
        other => panic!("{other:?}"),
    }
}

/// Slot 0 a message { 0: U8, 1: Optional U32 }, slot 1 the trait, slot 2 the impl.
fn schema(parameters: Vec<u64>, fields: Vec<(u64, Tree)>, arguments: Vec<Tree>) -> Schema {
    let target = message(0, vec![field(0, U8), field(1, wrap(OPTIONAL, U32))]);
    let body = Impl {
        span: (7, 8),
        trait_number: 2,
        trait_span: Some((9, 5)),
        arguments,
        target: Tree::Named(0),
    };
    let slots = vec![target, Slot::Trait { parameters, fields }, Slot::Impl(body)];
    declared(vec![0, 0, 1], slots)
}

#[test]
fn arity_has_the_trait_span() {
    let mut schema = schema(vec![2, 2], vec![], vec![U8]);
    assert_eq!(findings(&schema), [2, 2, 9, 5, 2, 1]);
    if let Slot::Impl(body) = &mut schema.slots[2] {
        body.trait_span = None;
    }
    assert_eq!(findings(&schema), [2, 2, 7, 8, 2, 1]);
}

#[test]
fn target_that_is_no_message() {
    let mut schema = schema(vec![], vec![], vec![]);
    if let Slot::Impl(body) = &mut schema.slots[2] {
        body.target = Tree::Named(1);
    }
    assert_eq!(findings(&schema), [3, 2, 7, 8, 0, 0]);
}

#[test]
fn lacking_fields_by_index_though_names_repeat() {
    let fields = vec![(0, U32), (0, U8), (0, U32), (1, wrap(OPTIONAL, U32))];
    let expected = [[4, 2, 7, 8, 0, 0], [4, 2, 7, 8, 2, 0]].concat();
    assert_eq!(findings(&schema(vec![], fields, vec![])), expected);
}

#[test]
fn parameter_is_its_first_position() {
    let fields = vec![(0, Tree::Named(2))];
    let found = findings(&schema(vec![2, 2], fields.clone(), vec![U8, U32]));
    assert!(found.is_empty());
    let found = findings(&schema(vec![2, 2], fields, vec![U32, U8]));
    assert_eq!(found, [4, 2, 7, 8, 0, 0]);
}

#[test]
fn qualified_name_is_no_parameter() {
    let fields = vec![(0, Tree::Qualified(2))];
    let found = findings(&schema(vec![2], fields, vec![U8]));
    assert_eq!(found, [4, 2, 7, 8, 0, 0]);
}

#[test]
fn unfound_names_are_equal() {
    let unfound = Tree::Named(u64::from(u32::MAX));
    let mut schema = schema(
        vec![],
        vec![(0, generic(1, U8)), (0, Tree::Named(1))],
        vec![],
    );
    schema.slots[0] = message(0, vec![field(0, unfound)]);
    assert!(findings(&schema).is_empty());
}

/// The report that is timed has every field of its trait, or none.
#[test]
fn wide_report_has_its_fields() {
    assert!(findings(&wide_report(true)).is_empty());
    let lacking = |index| [4, 2, 4_000, 60, index, 0];
    let expected: Vec<u32> = (0..20).flat_map(lacking).collect();
    assert_eq!(findings(&wide_report(false)), expected);
}
