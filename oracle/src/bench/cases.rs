//! The images that are timed.

use crate::example::bond_report;
use crate::export::export;
use crate::format::{Edition, IMAGE_LIMIT};
use crate::generate::bounds::full_enum;
use crate::generate::full::{filled, full_names, one_message};
use crate::generate::loops::{alias_ring, newtype_order, newtype_ring};
use crate::generate::schemas::{schema_of, Style};
use crate::model::{
    declared, field, fixed, generic, live, message, pair, wrap, Encoding, Field, Impl, Schema,
    Slot, Stored, Tree, ARRAY, BOOL, MAP, OPTIONAL, RESULT, U32, U8, VEC3,
};
use crate::random::Random;

/// An image of edition one.
pub struct Case {
    pub name: &'static str,
    pub image: Vec<u8>,
}

pub fn cases() -> Vec<Case> {
    let rows = rows(Edition::One).into_iter();
    let case = |row: Row| Case {
        name: row.name,
        image: (row.written)(Edition::One),
    };
    rows.map(case).collect()
}

/// The same schema in both editions, without limits or retired ones.
pub struct Pair {
    pub name: &'static str,
    pub images: [Vec<u8>; 2],
}

pub fn pairs() -> Vec<Pair> {
    let rows = rows(Edition::Two).into_iter();
    let pair = |row: Row| Pair {
        name: row.name,
        images: Edition::ALL.map(row.written),
    };
    rows.map(pair).collect()
}

struct Row {
    name: &'static str,
    written: Box<dyn Fn(Edition) -> Vec<u8>>,
}

/// All schemas; those that are full fill an image of this edition.
fn rows(edition: Edition) -> Vec<Row> {
    let mut random = Random::new(40, 0);
    let style = Style {
        valid: true,
        stored: false,
    };
    let case = |name, schema: Schema| Row {
        name,
        written: Box::new(move |edition| schema.bytes(edition)),
    };
    vec![
        case("nothing", Schema::default()),
        case("one message, 2 fields", one_small_message()),
        case("one message, 12 fields", one_message_of(12)),
        Row {
            name: "bond report",
            written: Box::new(|edition| {
                export(&bond_report(), edition).expect("the example is within the limits")
            }),
        },
        case("typical, 40 slots", typical()),
        case("random, 40 slots", schema_of(&mut random, style, 40)),
        case("wide report", wide_report(true)),
        case("wide report, none found", wide_report(false)),
        case("40 messages, inner first", nested(40, false)),
        case("40 messages, outer first", nested(40, true)),
        case("full, one message", one_message(&mut random, edition)),
        case("full, 512 messages", full_messages(edition)),
        case("512 newtypes in a ring", newtype_ring(512)),
        case("512 newtypes, full order", newtype_order(512, 29)),
        case("512 aliases in a ring", alias_ring(512)),
        case("full of names", full_names()),
        case("full of ordinals", full_enum(IMAGE_LIMIT, edition)),
        case("full of inline bits", full_bits()),
    ]
}

fn one_small_message() -> Schema {
    declared(
        vec![0, 0],
        vec![message(0, vec![field(0, U8), field(1, U32)])],
    )
}

fn one_message_of(fields: u64) -> Schema {
    let fields = (0..fields).map(|name| field(name, kind_of_field(name)));
    declared(vec![0; 12], vec![message(0, fields.collect())])
}

/// A report of 200 fields, and a trait of 20 parameters and 20 fields, spread
/// over those of the report: it has them all, or none of their names.
pub fn wide_report(found: bool) -> Schema {
    const PARAMETERS: u64 = 20;
    const FIELDS: u64 = PARAMETERS;
    const ELSEWHERE: u64 = 0;
    let fields = (0..200).map(|place| match (place % 10, found) {
        (9, true) => field(FIELDS + place, trait_type(place / 10, kind_of_field)),
        (9, false) => field(ELSEWHERE, trait_type(place / 10, kind_of_field)),
        _ => field(FIELDS + place, kind_of_field(place)),
    });
    let required = (0..20).map(|number| {
        let name = FIELDS + 10 * number + 9;
        (name, trait_type(number, Tree::Named))
    });
    let slots = vec![
        message(0, fields.collect()),
        Slot::Trait {
            parameters: (0..PARAMETERS).collect(),
            fields: required.collect(),
        },
        Slot::Impl(Impl {
            span: (4_000, 60),
            trait_number: 2,
            trait_span: None,
            arguments: (0..PARAMETERS).map(kind_of_field).collect(),
            target: Tree::Named(0),
        }),
    ];
    declared(vec![0; FIELDS as usize + 200], slots)
}

/// The type of a trait's field, by what its parameters are: each fourth has two.
fn trait_type(number: u64, parameter: impl Fn(u64) -> Tree) -> Tree {
    match number % 4 {
        0 => parameter(number),
        1 => wrap(OPTIONAL, parameter(number)),
        2 => wrap(ARRAY, parameter(number)),
        _ => pair(MAP, parameter(number), parameter(number - 1)),
    }
}

/// Each message holds the next one, and is declared after or before it.
fn nested(count: u64, outer_first: bool) -> Schema {
    let slot = |slot| {
        let mut fields = vec![field(0, U32), field(1, wrap(OPTIONAL, U8))];
        if slot + 1 < count {
            fields.push(field(2, Tree::Named(slot + 1)));
        }
        message(slot, fields)
    };
    let mut schema = declared(vec![0; 3], (0..count).map(slot).collect());
    if !outer_first {
        schema.declarations.reverse();
    }
    schema
}

/// 512 messages of equal length over the ones before them, to the last byte.
fn full_messages(edition: Edition) -> Schema {
    // Edition two has a byte more for each field.
    let plain = match edition {
        Edition::One => 20,
        Edition::Two => 16,
    };
    let slot = |slot: u64| {
        let before = |by: u64| Tree::Named(slot.saturating_sub(by));
        let mut fields: Vec<Field> = (0..plain)
            .map(|name| field(name, kind_of_field(name)))
            .collect();
        fields.push(field(20, wrap(OPTIONAL, before(1))));
        fields.push(field(21, wrap(ARRAY, before(7))));
        message(slot, fields)
    };
    let schema = declared(vec![0; 24], (0..512).map(slot).collect());
    filled(schema, edition)
}

/// Fields in turn: plain, optional, in arrays, encoded elsewhere.
fn kind_of_field(name: u64) -> Tree {
    match name % 5 {
        0 => U32,
        1 => wrap(OPTIONAL, U8),
        2 => Tree::Primitive(4),
        3 => fixed(BOOL, 12),
        _ => Tree::Semantic(0),
    }
}

/// One newtype whose inner type is a bit field of all names that fit.
fn full_bits() -> Schema {
    let newtype = |count| Slot::Newtype {
        inner: Tree::Bits(vec![0; count]),
        terminal: U8,
    };
    let schema = |count| declared(vec![0], vec![newtype(count)]);
    let room = IMAGE_LIMIT - schema(20_000).bytes(Edition::One).len();
    schema(20_000 + room)
}

/// A schema such as a machine's reports have: 6 enums, 3 flags, 6 newtypes,
/// 5 unions, 15 messages, a config, an alias, a trait and two impls.
fn typical() -> Schema {
    let mut slots: Vec<Slot> = (0..6).map(enumeration).collect();
    slots.extend((0..3).map(flags));
    slots.extend((0..6).map(newtype));
    slots.extend((0..5).map(union));
    slots.extend((0..15).map(report));
    slots.push(Slot::Config);
    // Name 0 is a parameter, 4 finds the alias, 16 the first newtype.
    slots.push(Slot::Alias {
        parameters: vec![0],
        target: Tree::Named(0),
    });
    slots.push(Slot::Trait {
        parameters: vec![0],
        fields: vec![
            (1, U32),
            (2, Tree::Named(0)),
            (3, generic(4, Tree::Named(16))),
        ],
    });
    slots.extend((0..2).map(conforming));
    let mut names = vec![0; 24];
    names[4] = ALIAS + 1;
    names[16] = NEWTYPES + 1;
    declared(names, slots)
}

const FLAGS: u64 = 6;
const NEWTYPES: u64 = 9;
const UNIONS: u64 = 15;
const MESSAGES: u64 = 20;
const ALIAS: u64 = 36;
const TRAIT: u64 = 37;

fn enumeration(number: u64) -> Slot {
    Slot::Enum {
        backing: number % 2,
        non_exhaustive: number % 3 / 2,
        bits: 0,
        ordinals: live((0..4 + 2 * number).collect()),
    }
}

fn flags(number: u64) -> Slot {
    Slot::Flags {
        bytes: 0,
        bits: live((0..6 + 5 * number).collect()),
    }
}

fn newtype(number: u64) -> Slot {
    let tree = match number % 3 {
        0 => U32,
        1 => Tree::Semantic(4),
        _ => wrap(VEC3, Tree::Primitive(9)),
    };
    Slot::Newtype {
        inner: tree.clone(),
        terminal: tree,
    }
}

fn union(number: u64) -> Slot {
    Slot::Union {
        stored: Stored::None,
        variants: vec![
            vec![],
            vec![field(5, Tree::Primitive(2))],
            vec![
                field(6, U8),
                field(7, wrap(OPTIONAL, Tree::Named(NEWTYPES + number))),
            ],
        ],
    }
}

/// Eleven fields, over slots that stand before and one message after.
fn report(number: u64) -> Slot {
    let counter = Field {
        encoding: Encoding { deltas: 0, last: 1 },
        ..field(8, U32)
    };
    let other = MESSAGES + (number + 1) % 15;
    let fields = vec![
        field(1, U32),
        field(2, Tree::Semantic(4)),
        field(3, Tree::Named(NEWTYPES)),
        field(9, Tree::Named(number % 6)),
        field(10, Tree::Named(FLAGS + number % 3)),
        counter,
        field(11, Tree::Named(NEWTYPES + number % 6)),
        field(12, Tree::Named(UNIONS + number % 5)),
        field(13, wrap(ARRAY, Tree::Named(other))),
        field(14, pair(RESULT, U8, Tree::Semantic(0))),
        field(15, pair(MAP, U32, wrap(OPTIONAL, U8))),
    ];
    message(number, fields)
}

fn conforming(number: u64) -> Slot {
    Slot::Impl(Impl {
        span: (4_000 + number, 60),
        trait_number: TRAIT + 1,
        trait_span: Some((4_010 + number, 8)),
        arguments: vec![Tree::Semantic(4)],
        target: Tree::Named(MESSAGES + number),
    })
}
