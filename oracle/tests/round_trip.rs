//! From a schema to an image and back.

use oracle::answer::{answer, lines, PROGRAM_PLACES};
use oracle::example::bond_report;
use oracle::export::{export, Unfit};
use oracle::format::{Edition, Entry};
use oracle::generate::{batch, Families};
use oracle::import::import;
use oracle::ir::{CompiledSchema, ResolvedType, TypeDef, WireSize};
use oracle::typeck::check;
use oracle::workers::on_long_stack;

#[test]
fn bond_report_comes_back() {
    let image = export(&bond_report(), Edition::One).expect("it fits");
    let imported = import(&image, Edition::One).expect("accepted");
    assert_eq!(export(&imported.schema, Edition::One).as_ref(), Ok(&image));
    let output = lines(&answer(&image, Edition::One, PROGRAM_PLACES).expect("a short check"));
    let expected = "vexil-typeck 1\nsize 0 4 3 0\nsize 1 2 8 33\nsize 2 2 67 124\nend 0\n";
    assert_eq!(output, expected);
}

#[test]
fn checked_bond_report_brings_its_sizes() {
    let mut schema = bond_report();
    assert!(check(&mut schema).is_empty());
    let imported = import(
        &export(&schema, Edition::One).expect("it fits"),
        Edition::One,
    )
    .expect("accepted");
    let size = imported
        .schema
        .registry
        .iter()
        .find_map(|(_, def)| match def {
            TypeDef::Message(message) => message.wire_size.clone(),
            _ => None,
        });
    let expected = WireSize::Variable {
        min_bits: 67,
        max_bits: Some(124),
    };
    assert_eq!(size, Some(expected));
}

/// Exporting an imported image renumbers its names; then it stays the same,
/// and its answer is that of the first image.
#[test]
fn accepted_images_come_back() {
    on_long_stack(images_come_back);
}

fn images_come_back() {
    for number in 0..4_000 {
        batch(21, number, Families::All, Entry::ONE, |_, image| {
            if let Ok(imported) = import(image, Edition::One) {
                let once = export(&imported.schema, Edition::One).expect("what was read fits");
                let again = import(&once, Edition::One).expect("accepted again");
                assert_eq!(export(&again.schema, Edition::One).as_ref(), Ok(&once));
                let answers =
                    [image, &once].map(|image| answer(image, Edition::One, PROGRAM_PLACES));
                assert_eq!(answers[0], answers[1]);
            }
        });
    }
}

fn edited(edit: impl Fn(&mut CompiledSchema)) -> Result<Vec<u8>, Unfit> {
    let mut schema = bond_report();
    edit(&mut schema);
    export(&schema, Edition::One)
}

#[test]
fn what_does_not_fit_is_told() {
    let many_slots = edited(|schema| {
        for _ in 0..510 {
            let stub = format!("stub{}", schema.registry.len());
            schema.registry.register_stub(stub.into());
        }
    });
    assert_eq!(many_slots, Err(Unfit::Slots));
    let many = edited(|schema| schema.declarations = schema.declarations.repeat(342));
    assert_eq!(many, Err(Unfit::Declarations));
    assert_eq!(with_field(|ty| nested(ty, 31)).err(), None);
    assert_eq!(with_field(|ty| nested(ty, 32)), Err(Unfit::Levels));
}

#[test]
fn long_lists_do_not_fit() {
    let bits = |count: u32| {
        let names = (0..count).map(|name| format!("bit{name}").as_str().into());
        ResolvedType::BitsInline(names.collect())
    };
    assert_eq!(with_field(|_| bits(4_000)).err(), None);
    assert_eq!(with_field(|_| bits(4_097)), Err(Unfit::Names));
    let same = |count| ResolvedType::BitsInline(vec!["bit".into(); count]);
    assert_eq!(with_field(|_| same(60_000)).err(), None);
    assert_eq!(with_field(|_| same(65_536)), Err(Unfit::Bytes));
    assert_eq!(with_field(|_| same(65_537)), Err(Unfit::Count));
}

fn nested(ty: ResolvedType, times: u32) -> ResolvedType {
    (0..times).fold(ty, |ty, _| ResolvedType::Optional(Box::new(ty)))
}

/// The bond report with the type of the report's first field changed.
fn with_field(change: impl Fn(ResolvedType) -> ResolvedType) -> Result<Vec<u8>, Unfit> {
    edited(|schema| {
        let id = *schema.declarations.last().expect("the report is declared");
        if let Some(TypeDef::Message(message)) = schema.registry.get_mut(id) {
            let ty = message.fields[0].resolved_type.clone();
            message.fields[0].resolved_type = change(ty);
        }
    })
}
