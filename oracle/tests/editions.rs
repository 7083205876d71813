//! Edition two: limits after the types of message and variant fields, retired
//! ones after the live ones of enums and flags, and nothing else; and what becomes
//! of them in edition one. `held_widths.rs` has the widths that retired ones hold,
//! `limited_arrays.rs` the sizes that limits bound.

mod taken_out;

use oracle::answer::{answer, Answer, PROGRAM_PLACES};
use oracle::example::bond_report;
use oracle::export::{export, tree_of, Unfit};
use oracle::format::{Edition, Entry, IMAGE_LIMIT};
use oracle::generate::{batch, Families};
use oracle::import::{import, Added};
use oracle::ir::{CompiledSchema, FieldDef, TombstoneDef, TypeDef};
use oracle::model::{
    declared, field, live, message, union, wrap, Encoding, Field, Ordinals, Schema, Slot, Tree,
    ARRAY, MAP, SET, U32, U8,
};
use oracle::span::Span;
use oracle::typeck::check;
use oracle::workers::on_long_stack;
use taken_out::{moved, taken_out};

/// One name; one slot, a message { 0: U8 }, up to the field's limit.
const TO_LIMIT: [u8; 12] = [1, 0, 1, 1, 0, 0, 0, 1, 0, 0, 0, 1];
/// The message is declared.
const DECLARED: [u8; 2] = [1, 0];

/// An enum without ordinals, and flags without bits, up to the retired count.
const TO_RETIRED_ORDINALS: [u8; 7] = [0, 1, 2, 0, 0, 0, 0];
const TO_RETIRED_BITS: [u8; 5] = [0, 1, 3, 0, 0];

fn joined(parts: &[&[u8]]) -> Vec<u8> {
    parts.concat()
}

fn answered(image: &[u8], edition: Edition) -> Answer {
    answer(image, edition, PROGRAM_PLACES).expect("a short check")
}

/// The size table of an accepted image without findings.
fn sizes(image: &[u8], edition: Edition) -> Vec<u64> {
    match answered(image, edition) {
        Answer::Accepted {
            count: 0, sizes, ..
        } => sizes,
        other => panic!("{other:?}"),
    }
}

fn refused(image: &[u8], edition: Edition) -> Option<(u64, u64)> {
    let refusal = import(image, edition).err()?;
    Some((refusal.number, refusal.place))
}

/// What was refused in edition two, and which of its numbers.
fn refused_two(image: &[u8]) -> (u64, u64, Option<Added>) {
    let refusal = import(image, Edition::Two).expect_err("a refusal");
    (refusal.number, refusal.place, refusal.added)
}

/// Limits of all message and variant fields, in order.
fn limits(schema: &CompiledSchema) -> Vec<Option<u64>> {
    let mut limits = Vec::new();
    let mut all = |fields: &[FieldDef]| {
        limits.extend(fields.iter().map(|field| field.encoding.limit));
    };
    for (_, definition) in schema.registry.iter() {
        match definition {
            TypeDef::Message(message) => all(&message.fields),
            TypeDef::Union(un) => un.variants.iter().for_each(|variant| all(&variant.fields)),
            _ => {}
        }
    }
    limits
}

/// Retired ordinals and bits of each enum and flags, in order.
fn retired(schema: &CompiledSchema) -> Vec<Vec<u32>> {
    let ordinals = |list: &[TombstoneDef]| list.iter().map(|one| one.ordinal).collect();
    let definitions = schema.registry.iter();
    let lists = definitions.filter_map(|(_, definition)| match definition {
        TypeDef::Enum(en) => Some(ordinals(&en.tombstones)),
        TypeDef::Flags(flags) => Some(ordinals(&flags.tombstones)),
        _ => None,
    });
    lists.collect()
}

fn read_two(image: &[u8]) -> CompiledSchema {
    import(image, Edition::Two).expect("accepted").schema
}

const LIMITS: [(&[u8], Option<u64>); 6] = [
    (&[0], None),
    (&[1], Some(1)),
    (&[0x7f], Some(127)),
    (&[0x80, 1], Some(128)),
    (&[0xff, 0x7f], Some(16_383)),
    (&[0xff, 0xff, 0xff, 0xff, 0x0f], Some(0xffff_ffff)),
];

#[test]
fn limit_of_a_message_field() {
    for (form, limit) in LIMITS {
        let image = joined(&[&TO_LIMIT, form, &DECLARED]);
        assert_eq!(limits(&read_two(&image)), [limit]);
        assert_eq!(sizes(&image, Edition::Two), [1, 8, 8]);
        assert_eq!(taken_out(&image), joined(&[&TO_LIMIT, &DECLARED]));
    }
}

#[test]
fn limit_of_a_variant_field() {
    // Varint U8 in the first of two variants; the second is empty.
    let before = [1, 0, 1, 4, 0, 2, 1, 0, 1, 0, 1];
    for (form, limit) in LIMITS {
        let image = joined(&[&before, form, &[0], &DECLARED]);
        assert_eq!(limits(&read_two(&image)), [limit]);
        assert_eq!(sizes(&image, Edition::Two), [2, 8, 88]);
    }
    assert_eq!(refused_two(&before), (2, 11, Some(Added::Limit)));
}

#[test]
fn damaged_limits_have_their_place() {
    let limit = |form: &[u8]| refused_two(&joined(&[&TO_LIMIT, form]));
    let at_limit = |number| (number, 12, Some(Added::Limit));
    assert_eq!(limit(&[]), at_limit(2));
    assert_eq!(limit(&[0x80]), at_limit(2));
    assert_eq!(limit(&[0x80, 0]), at_limit(3));
    assert_eq!(limit(&[0xff, 0]), at_limit(3));
    assert_eq!(limit(&[0x80; 10]), at_limit(3));
    assert_eq!(limit(&[0x80, 0x80, 0x80, 0x80, 0x10]), at_limit(4));
    assert_eq!(limit(&[0xff, 0xff, 0xff, 0xff, 0x1f]), at_limit(4));
}

/// Places after a limit count its bytes.
#[test]
fn later_places_are_those_of_edition_two() {
    let most = [0xff, 0xff, 0xff, 0xff, 0x0f];
    assert_eq!(refused_two(&joined(&[&TO_LIMIT, &most])), (2, 17, None));
    let extra = joined(&[&TO_LIMIT, &most, &DECLARED, &[0]]);
    assert_eq!(refused_two(&extra), (6, 19, None));
    let after_retired = joined(&[&TO_RETIRED_ORDINALS, &[2, 5, 6], &[0x80, 0]]);
    assert_eq!(refused_two(&after_retired), (3, 10, None));
    let starts = import(
        &joined(&[&[0, 2], &TO_RETIRED_BITS[2..], &[1, 9, 6, 0]]),
        Edition::Two,
    );
    assert_eq!(starts.expect("accepted").starts, [2, 7]);
}

/// A trait's field is followed by the next name, or by what follows the slot.
#[test]
fn trait_fields_have_no_limit() {
    let image = [2, 0, 0, 1, 8, 0, 2, 0, 0, 1, 1, 0, 3, 0];
    for edition in Edition::ALL {
        let imported = import(&image, edition).expect("accepted");
        let definitions = imported.schema.registry.iter();
        let fields = definitions.map(|(_, definition)| match definition {
            TypeDef::Trait(body) => body.fields.len(),
            other => panic!("{other:?}"),
        });
        assert_eq!(fields.collect::<Vec<_>>(), [2]);
    }
    let with_limit = [1, 0, 1, 8, 0, 1, 0, 0, 1, 5, 0];
    assert_eq!(refused_two(&with_limit), (2, 11, None));
}

#[test]
fn retired_lists() {
    // Count 0; two, one twice; the greatest; live 3 and 4, and 3 retired too. Then
    // the bits of an enum and the bytes of flags.
    type List = (&'static [u8], &'static [u8], &'static [u32], [u64; 2]);
    let lists: [List; 4] = [
        (&[0], &[0], &[], [1, 1]),
        (&[0], &[3, 7, 9, 7], &[7, 9, 7], [4, 2]),
        (
            &[0],
            &[1, 0xff, 0xff, 0xff, 0xff, 0x0f],
            &[u32::MAX],
            [32, 8],
        ),
        (&[2, 3, 4], &[1, 3], &[3], [3, 1]),
    ];
    for (live, list, ordinals, [bits, bytes]) in lists {
        let image = joined(&[&TO_RETIRED_ORDINALS[..6], live, list, &DECLARED]);
        assert_eq!(retired(&read_two(&image)), [ordinals]);
        assert_eq!(sizes(&image, Edition::Two), [4, bits, 0]);
        let image = joined(&[&TO_RETIRED_BITS[..4], live, list, &DECLARED]);
        assert_eq!(retired(&read_two(&image)), [ordinals]);
        assert_eq!(sizes(&image, Edition::Two), [5, bytes, 0]);
    }
}

#[test]
fn damaged_retired_lists() {
    for before in [&TO_RETIRED_ORDINALS[..], &TO_RETIRED_BITS] {
        let place = before.len() as u64;
        let list = |form: &[u8]| refused_two(&joined(&[before, form]));
        let count = |number| (number, place, Some(Added::RetiredCount));
        assert_eq!(list(&[]), count(2));
        assert_eq!(list(&[0x81, 0]), count(3));
        assert_eq!(list(&[0x81, 0x80, 4]), count(4));
        let second = |number| (number, place + 2, Some(Added::Retired { count: 2 }));
        assert_eq!(list(&[2, 0]), second(2));
        assert_eq!(list(&[2, 0, 0x80, 0]), second(3));
        assert_eq!(list(&[2, 0, 0x80, 0x80, 0x80, 0x80, 0x10]), second(4));
        let none = Some(Added::Retired { count: 65_536 });
        assert_eq!(list(&[0x80, 0x80, 4]), (2, place + 3, none));
    }
}

/// 65,536 retired ones have more bytes than an image, whatever they are; cut
/// there, the next of them is missing.
#[test]
fn the_longest_list_does_not_fit() {
    let image = |count: usize| {
        let mut image = TO_RETIRED_ORDINALS.to_vec();
        oracle::format::write_number(count as u64, &mut image);
        image.resize(image.len() + count, 1);
        image.push(0);
        image
    };
    // Eleven bytes around it.
    let full = image(IMAGE_LIMIT - 11);
    assert_eq!(full.len(), IMAGE_LIMIT);
    assert_eq!(retired(&read_two(&full))[0].len(), 65_525);
    assert_eq!(
        refused(&image(IMAGE_LIMIT - 10), Edition::Two),
        Some((1, 0))
    );
    let most = image(65_536);
    assert_eq!(refused(&most, Edition::Two), Some((1, 0)));
    let cut = refused(&most[..IMAGE_LIMIT], Edition::Two);
    assert_eq!(cut, Some((2, IMAGE_LIMIT as u64)));
    let over = image(65_537);
    assert_eq!(refused(&over, Edition::Two), Some((1, 0)));
    assert_eq!(refused(&over[..IMAGE_LIMIT], Edition::Two), Some((4, 7)));
}

/// What edition one takes for a declaration, edition two takes for a limit.
#[test]
fn both_editions_accept_the_same_bytes() {
    let image = joined(&[&TO_LIMIT, &DECLARED]);
    assert_eq!(sizes(&image, Edition::One), [1, 8, 8]);
    assert_eq!(sizes(&image, Edition::Two), [0, 0, 0]);
    assert_eq!(limits(&read_two(&image)), [Some(1)]);
    // An enum, then an empty slot and six declarations; or a config and five.
    let image = [0, 2, 2, 0, 0, 9, 0, 0, 6, 5, 1, 1, 1, 1, 1];
    assert_eq!(sizes(&image, Edition::One), [4, 9, 0, 0, 0, 0]);
    assert_eq!(
        import(&image, Edition::One).expect("accepted").starts,
        [2, 7]
    );
    assert_eq!(
        import(&image, Edition::Two).expect("accepted").starts,
        [2, 8]
    );
}

/// The limit of 65,536 bytes is that of the edition-two image.
#[test]
fn limits_count_for_the_length() {
    let schema = |fields| declared(vec![0], vec![message(0, vec![field(0, U8); fields])]);
    // Four bytes a field, or five, and eleven around them.
    let most = (IMAGE_LIMIT - 11) / 5;
    let two = |fields| schema(fields).bytes(Edition::Two);
    assert_eq!(two(most).len(), IMAGE_LIMIT);
    assert_eq!(refused(&two(most), Edition::Two), None);
    assert_eq!(refused(&two(most + 1), Edition::Two), Some((1, 0)));
    assert_eq!(
        refused(&schema(most + 1).bytes(Edition::One), Edition::One),
        None
    );
}

/// A schema with limits and retired ones in every place there is.
fn everywhere() -> Schema {
    let limited = |name, tree, limit| Field {
        limit,
        ..field(name, tree)
    };
    let delta = Field {
        encoding: Encoding { deltas: 2, last: 1 },
        ..limited(1, U32, 300)
    };
    let ordinals = Ordinals {
        live: vec![1, 2],
        retired: vec![900, 2, 900],
    };
    let slots = vec![
        message(0, vec![limited(0, wrap(ARRAY, U8), 5), delta, field(0, U8)]),
        Slot::Enum {
            backing: 0,
            non_exhaustive: 1,
            bits: 3,
            ordinals: ordinals.clone(),
        },
        Slot::Flags {
            bytes: 2,
            bits: ordinals,
        },
        union(vec![vec![], vec![limited(1, U8, 1), limited(0, U32, 0)]]),
        Slot::Enum {
            backing: 2,
            non_exhaustive: 0,
            bits: 0,
            ordinals: live(vec![7]),
        },
    ];
    declared(vec![1, 0], slots)
}

/// The schema with its retired ones behind the live ones.
fn revived(mut schema: Schema) -> Schema {
    for slot in &mut schema.slots {
        if let Slot::Enum { ordinals, .. } | Slot::Flags { bits: ordinals, .. } = slot {
            let retired = std::mem::take(&mut ordinals.retired);
            ordinals.live.extend(retired);
        }
    }
    schema
}

#[test]
fn schemas_come_back_in_both_editions() {
    let schema = everywhere();
    let two = schema.bytes(Edition::Two);
    let read = read_two(&two);
    let expected = [Some(5), Some(300), None, Some(1), None];
    assert_eq!(limits(&read), expected);
    let list = vec![900, 2, 900];
    assert_eq!(retired(&read), [list.clone(), list, vec![]]);
    assert_eq!(export(&read, Edition::Two), Ok(two.clone()));
    let one = schema.bytes(Edition::One);
    assert_eq!(taken_out(&two), one);
    assert_eq!(export(&read, Edition::One), Ok(one.clone()));
    assert_eq!(moved(&two), revived(schema).bytes(Edition::One));
    let read = import(&one, Edition::One).expect("accepted").schema;
    assert_eq!(limits(&read), [None; 5]);
    assert!(retired(&read).iter().all(Vec::is_empty));
    assert_eq!(export(&read, Edition::One), Ok(one));
}

fn tombstone(ordinal: u32) -> TombstoneDef {
    TombstoneDef {
        span: Span::empty(0),
        ordinal,
        reason: "worn out".into(),
        since: None,
        original_type: None,
    }
}

/// The bond report, its first message field with a limit, its enum with
/// tombstones.
fn changed_report(limit: Option<u64>, tombstones: Vec<TombstoneDef>) -> CompiledSchema {
    let mut schema = bond_report();
    for id in schema.declarations.clone() {
        match schema.registry.get_mut(id) {
            Some(TypeDef::Message(message)) => message.fields[0].encoding.limit = limit,
            Some(TypeDef::Enum(en)) => en.tombstones = tombstones.clone(),
            _ => {}
        }
    }
    schema
}

#[test]
fn exporter_writes_limits_and_tombstones() {
    let schema = changed_report(Some(12), vec![tombstone(9), tombstone(4), tombstone(9)]);
    let image = export(&schema, Edition::Two).expect("it fits");
    let read = read_two(&image);
    // Variant fields come first.
    let mut expected = vec![None; 8];
    expected[3] = Some(12);
    assert_eq!(limits(&read), expected);
    assert_eq!(retired(&read), [[9, 4, 9]]);
    // Edition one has no place for them.
    let plain = export(&bond_report(), Edition::One).expect("it fits");
    assert_eq!(export(&schema, Edition::One).as_ref(), Ok(&plain));
    assert_eq!(taken_out(&image), plain);
    // A retired 9 takes a bit more than the live ones, in the report too.
    let rows = [4, 3, 0, 2, 8, 33, 2, 67, 124];
    assert_eq!(sizes(&plain, Edition::One), rows);
    let rows = [4, 4, 0, 2, 8, 33, 2, 68, 125];
    assert_eq!(sizes(&image, Edition::Two), rows);
    assert_eq!(sizes(&moved(&image), Edition::One), rows);
}

#[test]
fn what_does_not_fit_edition_two_is_told() {
    let limit = |limit| export(&changed_report(Some(limit), vec![]), Edition::Two).err();
    assert_eq!(limit(u32::MAX.into()), None);
    assert_eq!(limit(u64::from(u32::MAX) + 1), Some(Unfit::Limit));
    assert_eq!(limit(0), Some(Unfit::Limit));
    let told = "a field's limit of 0 or above 2^32 - 1";
    assert_eq!(Unfit::Limit.to_string(), told);
    let retire = |count| changed_report(None, vec![tombstone(1); count]);
    let retired = |count| export(&retire(count), Edition::Two).err();
    assert_eq!(retired(65_000), None);
    assert_eq!(retired(65_536), Some(Unfit::Bytes));
    assert_eq!(retired(65_537), Some(Unfit::Count));
    // None of it matters where it is left out.
    let mut schema = retire(65_537);
    assert!(export(&schema, Edition::One).is_ok());
    schema = changed_report(Some(0), vec![]);
    assert!(export(&schema, Edition::One).is_ok());
}

/// Calls `visit` with generated images that edition two accepts.
fn each_accepted(
    entry: Entry,
    batches: u64,
    visit: &mut (dyn FnMut(&[u8], CompiledSchema) + Send),
) {
    on_long_stack(|| {
        for number in 0..batches {
            batch(31, number, Families::All, entry, |_, image| {
                if let Ok(imported) = import(image, Edition::Two) {
                    visit(image, imported.schema);
                }
            });
        }
    });
}

/// Whether a limit bears on elements.
fn bears(schema: &CompiledSchema) -> bool {
    let tree = tree_of(schema, Edition::Two).expect("what was read fits");
    let is_limited = |field: &Field| {
        let own = matches!(
            field.tree,
            Tree::Wrap(ARRAY | SET, _) | Tree::Pair(MAP, _, _)
        );
        own && field.limit > 0 && field.encoding.last == 0
    };
    tree.slots.iter().any(|slot| match slot {
        Slot::Message { fields, .. } => fields.iter().any(is_limited),
        Slot::Union { variants, .. } => variants.iter().flatten().any(is_limited),
        _ => false,
    })
}

/// What limits may make of an answer: rows gain a largest and change in nothing else,
/// or a size is refused. Answers whether a row has one more.
fn assert_limited(limited: &Answer, plain: &Answer) -> bool {
    let (
        Answer::Accepted {
            sizes, findings, ..
        },
        Answer::Accepted {
            sizes: plain_sizes,
            findings: plain_findings,
            ..
        },
    ) = (limited, plain)
    else {
        let by_size = matches!(
            limited,
            Answer::Refused {
                number: 11 | 14,
                ..
            }
        );
        assert!(by_size || limited == plain, "{limited:?}, not {plain:?}");
        return false;
    };
    assert_eq!(findings, plain_findings);
    for (row, plain) in sizes.chunks(3).zip(plain_sizes.chunks(3)) {
        let bounded = plain[0] == 3 && row[0] == 2 && row[1] == plain[1] && row[2] >= row[1];
        assert!(row == plain || bounded, "{row:?}, not {plain:?}");
    }
    sizes != plain_sizes
}

/// Where no limit bears on elements, that of the image with retired ones live; where
/// one does, as that one but for sizes that it bounds.
#[test]
fn answered_as_with_retired_ones_live() {
    let (mut accepted, mut wider, mut bounded, mut refused) = (0, 0, 0, 0);
    for two in [Entry::TWO, Entry::ALIGNED_TWO] {
        let one = Entry {
            edition: Edition::One,
            ..two
        };
        each_accepted(two, 6_000, &mut |image, schema| {
            let (live, left) = (moved(image), taken_out(image));
            assert!(live.len() <= image.len());
            let images = [(image, two), (&live, one), (&left, one)];
            let [two, live, left] =
                images.map(|(image, entry)| answer(image, entry, PROGRAM_PLACES));
            match (&two, &live) {
                (Ok(two), Ok(live)) if bears(&schema) => {
                    bounded += u64::from(assert_limited(two, live));
                    refused += u64::from(two != live && !is_accepted(two));
                }
                // What limits bear on may take too long.
                (Err(_), _) if bears(&schema) => {}
                _ => assert_eq!(two, live, "{image:02x?}"),
            }
            accepted += u64::from(two.as_ref().is_ok_and(is_accepted));
            wider += u64::from(live != left);
        });
    }
    assert!(accepted > 6_000, "{accepted}");
    assert!(wider > 600, "{wider}");
    assert!(bounded > 250, "{bounded}");
    assert!(refused > 250, "{refused}");
}

fn is_accepted(answer: &Answer) -> bool {
    matches!(answer, Answer::Accepted { .. })
}

/// Limits and retired ones leave nothing else behind: what is left holds what the
/// exporter writes of the rest.
#[test]
fn taken_out_as_the_exporter_leaves_out() {
    let mut changed = 0;
    each_accepted(Entry::TWO, 4_000, &mut |image, schema| {
        let left = taken_out(image);
        let one = import(&left, Edition::One).expect("accepted too").schema;
        assert_eq!(export(&one, Edition::One), export(&schema, Edition::One));
        let limited = limits(&schema).iter().any(Option::is_some);
        let retires = retired(&schema).iter().any(|list| !list.is_empty());
        changed += u64::from(limited || retires);
    });
    assert!(changed > 1_000, "{changed}");
}

/// Findings hang on no widths and no limits: whatever is taken out, they stay.
#[test]
fn findings_are_those_of_the_image_left() {
    let (mut found, mut wider) = (0, 0);
    each_accepted(Entry::TWO, 8_000, &mut |image, mut schema| {
        let left = taken_out(image);
        let images = [(image, Edition::Two), (&left, Edition::One)];
        let tables = images.map(
            |(image, edition)| match answer(image, edition, PROGRAM_PLACES) {
                Ok(Answer::Accepted {
                    sizes, findings, ..
                }) => Some((sizes, findings)),
                _ => None,
            },
        );
        // Edition two refuses more for a size.
        let [Some((sizes, findings)), Some((sizes_left, findings_left))] = tables else {
            return;
        };
        assert_eq!(findings, findings_left);
        found += u64::from(!findings.is_empty());
        wider += u64::from(!findings.is_empty() && sizes != sizes_left);
        // The check itself has no limit of sizes.
        let mut left = import(&left, Edition::One).expect("accepted too").schema;
        let told = [&mut schema, &mut left].map(|schema| format!("{:?}", check(schema)));
        assert_eq!(told[0], told[1]);
    });
    assert!(found > 1_000, "{found}");
    assert!(wider > 20, "{wider}");
}

#[test]
fn generated_images_come_back() {
    each_accepted(Entry::TWO, 3_000, &mut |_, schema| {
        let once = export(&schema, Edition::Two).expect("what was read fits");
        let again = read_two(&once);
        assert_eq!(limits(&again), limits(&schema));
        assert_eq!(retired(&again), retired(&schema));
        assert_eq!(export(&again, Edition::Two), Ok(once));
    });
}
