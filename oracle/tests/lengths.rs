//! The enumerator of lengths: each length rule of documents 01 and 02 by hand, what
//! the head board, retired ones and limits change, and wrong sizes that it has to
//! tell.

mod wrong_sizes;

use std::sync::OnceLock;

use oracle::answer::{Answer, Whole};
use oracle::export::export;
use oracle::format::{Edition, Entry, Layout};
use oracle::import::import;
use oracle::ir::CompiledSchema;
use oracle::lengths::clauses::{Clause, Facts, Proviso, Tally, Truth, Violation};
use oracle::lengths::rules::lengths_of_slots;
use oracle::lengths::set::{Lengths, HORIZON};
use oracle::lengths::{run, schema, subjects, Broken, Subject, Table};
use oracle::library::{
    Library, Sizer, Verdict, REFERENCE, REFERENCE_ALIGNED, REFERENCE_ALIGNED_TWO, REFERENCE_TWO,
};
use oracle::model::{
    declared, field, fixed, live, message, pair, union, wrap, Encoding, Field, Ordinals, Schema,
    Slot, Stored, Tree, ARRAY, BOOL, MAP, MAT4, OPTIONAL, RESULT, SET, U32, U8, VEC2, VEC3, VOID,
};
use oracle::workers::on_long_stack;
use wrong_sizes::{table, worked, Wrong, LIMITS_NOT_ASKED, NOT_ASKED};

const SEED: u64 = 1;

/// A type that names its own slot, the message 0, has this part.
const ITSELF: Tree = Tree::Named(0);

fn compiled(schema: &Schema, edition: Edition) -> CompiledSchema {
    let imported = import(&schema.bytes(edition), edition);
    imported.expect("an accepted image").schema
}

fn facts(schema: &Schema) -> Facts {
    Facts::of(&compiled(schema, Edition::One), Layout::Packed)
}

fn all(schema: &Schema) -> Vec<Lengths> {
    lengths_of_slots(&compiled(schema, Edition::One), Layout::Packed)
}

fn first(slots: Vec<Slot>) -> Lengths {
    all(&declared(vec![0; 3], slots))[0]
}

/// The lengths of a message that has this type as its one field.
fn of(tree: Tree) -> Lengths {
    first(vec![message(0, vec![field(0, tree)])])
}

/// The same, with other slots behind it.
fn beside(tree: Tree, others: &[Slot]) -> Lengths {
    let mut slots = vec![message(0, vec![field(0, tree)])];
    slots.extend_from_slice(others);
    first(slots)
}

fn encoded(deltas: u32, last: u64, tree: Tree) -> Lengths {
    let encoding = Encoding { deltas, last };
    let field = Field {
        encoding,
        ..field(0, tree)
    };
    first(vec![message(0, vec![field])])
}

fn these<const N: usize>(lengths: [u64; N]) -> Lengths {
    lengths.into_iter().collect()
}

fn any() -> Lengths {
    Lengths::any_from(0)
}

#[test]
fn leaves_have_their_fixed_length() {
    let widths = [1, 8, 16, 32, 64, 8, 16, 32, 64, 32, 64, 32, 64, 0];
    for (number, bits) in widths.into_iter().enumerate() {
        assert_eq!(of(Tree::Primitive(number as u64)), these([bits]));
    }
    assert_eq!(of(Tree::SubByte(1, 5)), these([5]));
    assert_eq!(of(Tree::SubByte(0, 0)), these([0]));
    assert_eq!(of(Tree::Bits(vec![])), these([0]));
    assert_eq!(of(Tree::Bits(vec![0, 1, 1])), these([3]));
    for (number, bits) in [(2, 24), (3, 128), (4, 64), (5, 256)] {
        assert_eq!(of(Tree::Semantic(number)), these([bits]));
    }
    assert_eq!(of(Tree::Semantic(0)), any());
    assert_eq!(of(Tree::Semantic(1)), any());
}

#[test]
fn encodings_give_multiples_of_eight() {
    let bytes = |most: u64| -> Lengths { (1..=most).map(|bytes| 8 * bytes).collect() };
    let types = [
        (1, 2, 3),
        (1, 3, 5),
        (1, 4, 10),
        (2, 6, 3),
        (2, 7, 5),
        (2, 8, 10),
    ];
    for (encoding, number, most) in types {
        let tree = Tree::Primitive(number);
        assert_eq!(encoded(0, encoding, tree.clone()), bytes(most));
        assert_eq!(encoded(2, encoding, tree.clone()), bytes(most), "Delta");
        // The other of the two does not know the type.
        assert_eq!(encoded(0, 3 - encoding, tree), bytes(10));
    }
    assert_eq!(encoded(0, 1, VOID), bytes(10));
    assert_eq!(encoded(0, 1, ITSELF), bytes(10));
    assert_eq!(encoded(0, 2, wrap(OPTIONAL, Tree::Primitive(6))), bytes(10));
    assert_eq!(encoded(3, 0, U8), these([8]), "Delta of Default");
}

#[test]
fn wrappers() {
    assert_eq!(of(wrap(OPTIONAL, U8)), these([1, 9]));
    assert_eq!(of(wrap(OPTIONAL, wrap(OPTIONAL, BOOL))), these([1, 2, 3]));
    assert_eq!(of(pair(RESULT, U8, U32)), these([9, 33]));
    assert_eq!(
        of(pair(RESULT, VOID, Tree::Semantic(0))),
        Lengths::any_from(1)
    );
}

/// Sums of `step` from `first` on up to the horizon, and past it.
fn steps(first: u64, step: u64) -> Lengths {
    let mut lengths: Lengths = (first..HORIZON).step_by(step as usize).collect();
    lengths.put(HORIZON);
    lengths
}

/// A count in groups of seven bits, 8 bits each, and then so many elements.
#[test]
fn elements_behind_their_count() {
    // 127 U8 after one group would be 1,024 bits.
    assert_eq!(of(wrap(ARRAY, U8)), steps(8, 8));
    assert_eq!(of(wrap(SET, U8)), steps(8, 8));
    assert_eq!(of(pair(MAP, U8, U8)), steps(8, 16));
    assert_eq!(of(pair(MAP, U8, U32)), steps(8, 40));
    // 128 Bool take two groups: no 8 + 128 to 16 + 127 bits.
    let mut bools: Lengths = (8..=8 + 127).collect();
    bools = bools.or(&Lengths::any_from(16 + 128));
    assert_eq!(of(wrap(ARRAY, BOOL)), bools);
    // Of no bits, ten groups at most.
    let counts: Lengths = (1..=10).map(|groups| 8 * groups).collect();
    assert_eq!(of(wrap(SET, VOID)), counts);
    assert_eq!(of(pair(MAP, VOID, fixed(BOOL, 0))), counts);
    assert_eq!(of(wrap(ARRAY, Tree::Semantic(0))), Lengths::any_from(8));
    assert_eq!(of(wrap(ARRAY, wrap(ARRAY, VOID))), steps(8, 8));
    let union = union(vec![vec![], vec![field(0, U8)]]);
    assert_eq!(beside(wrap(ARRAY, Tree::Named(1)), &[union]), steps(8, 8));
}

/// Arrays may be empty, so a type that has no length otherwise has one by them.
#[test]
fn elements_of_the_own_type() {
    assert_eq!(of(wrap(ARRAY, ITSELF)), steps(8, 8));
    assert_eq!(of(pair(MAP, ITSELF, U8)), steps(8, 16));
    let newtype = Slot::Newtype {
        inner: BOOL,
        terminal: wrap(ARRAY, Tree::Named(1)),
    };
    assert_eq!(beside(Tree::Named(1), &[newtype]), steps(8, 8));
    // Elements without lengths: no more than none of them.
    let endless = message(1, vec![field(0, Tree::Named(1))]);
    let one = || std::slice::from_ref(&endless);
    assert_eq!(beside(wrap(SET, Tree::Named(1)), one()), these([8]));
    assert_eq!(beside(pair(MAP, U8, Tree::Named(1)), one()), these([8]));
    let maybe = wrap(OPTIONAL, wrap(ARRAY, Tree::Named(1)));
    assert_eq!(beside(maybe, one()), these([1, 9]));
}

/// Sums of so many against a count of each number of them.
#[test]
fn counts_are_all_numbers() {
    let mut random = oracle::random::Random::new(SEED, 1);
    for _ in 0..200 {
        let count = random.below(4);
        let bound = random.pick(&[3, 20, 200]);
        let element: Lengths = (0..count).map(|_| random.below(bound)).collect();
        let most = random.pick(&[1, 2, 3, 100, 127, 128, 129, 300, 1_500]);
        let mut all = Lengths::NONE;
        let mut sum = Lengths::one(0);
        for elements in 0..=most {
            let groups = if elements < 128 { 1 } else { 2 };
            all = all.or(&sum.longer(8 * groups));
            sum = sum.plus(&element);
        }
        assert_eq!(element.counted(most), all, "{most} of {element:?}");
    }
}

/// In edition two a limit bounds the count, of the field's own type alone.
#[test]
fn limits_bound_the_count() {
    let limited = |tree: Tree, limit: u64, deltas: u32, last: u64| Field {
        encoding: Encoding { deltas, last },
        limit,
        ..field(0, tree)
    };
    let lengths = |field: Field, entry: Entry| {
        let slots = vec![message(0, vec![field]), Slot::Config];
        let schema = compiled(&declared(vec![0], slots), entry.edition);
        lengths_of_slots(&schema, entry.layout)[0]
    };
    let two = |tree: Tree, limit| lengths(limited(tree, limit, 0, 0), Entry::TWO);
    assert_eq!(two(wrap(ARRAY, U8), 3), these([8, 16, 24, 32]));
    assert_eq!(two(pair(MAP, BOOL, U8), 2), these([8, 17, 26]));
    assert_eq!(two(wrap(SET, VOID), 127), these([8]));
    assert_eq!(two(wrap(SET, VOID), 128), these([8, 16]));
    assert_eq!(
        two(wrap(SET, VOID), u32::MAX.into()),
        these([8, 16, 24, 32, 40])
    );
    assert_eq!(two(wrap(ARRAY, wrap(ARRAY, U8)), 1), steps(8, 8));
    assert_eq!(two(wrap(ARRAY, U8), 0), steps(8, 8));
    assert_eq!(two(wrap(ARRAY, ITSELF), 1), steps(8, 8));
    let optional = wrap(OPTIONAL, wrap(ARRAY, U8));
    assert_eq!(two(optional, 1), these([1]).or(&steps(9, 8)));
    let delta = |last| lengths(limited(wrap(ARRAY, U8), 1, 2, last), Entry::TWO);
    assert_eq!(delta(0), these([8, 16]));
    assert_eq!(delta(1), (1..=10).map(|bytes| 8 * bytes).collect());
    // The field is rounded on the head board, and not its elements.
    let three = || limited(wrap(ARRAY, BOOL), 3, 0, 0);
    assert_eq!(lengths(three(), Entry::TWO), these([8, 9, 10, 11]));
    assert_eq!(lengths(three(), Entry::ALIGNED_TWO), these([8, 16]));
    assert!(lengths(three(), Entry::ONE).reaches_beyond());
}

#[test]
fn sums_of_that_many() {
    let one = || wrap(OPTIONAL, BOOL);
    assert_eq!(of(fixed(U8, 5)), these([40]));
    assert_eq!(of(fixed(one(), 3)), these([3, 4, 5, 6]));
    assert_eq!(of(fixed(pair(RESULT, VOID, U8), 2)), these([2, 10, 18]));
    for (kind, count) in [(VEC2, 2), (VEC3, 3), (12, 4), (13, 4), (14, 9), (MAT4, 16)] {
        let sum: Lengths = (count..=2 * count).collect();
        assert_eq!(of(wrap(kind, one())), sum, "kind {kind}");
    }
    assert_eq!(of(fixed(Tree::Semantic(0), 0)), these([0]));
    assert_eq!(
        of(fixed(ITSELF, 0)),
        these([0]),
        "of a type without lengths"
    );
    assert_eq!(of(fixed(VOID, u64::MAX)), these([0]));
    let far = of(fixed(wrap(OPTIONAL, VOID), u64::MAX));
    assert_eq!((far.ends(), far.reaches_beyond()), (None, true));
}

#[test]
fn messages_and_unions() {
    assert_eq!(first(vec![message(0, vec![])]), these([0]));
    let fields = || {
        vec![
            field(0, wrap(OPTIONAL, U8)),
            field(0, pair(RESULT, BOOL, U32)),
        ]
    };
    assert_eq!(first(vec![message(0, fields())]), these([3, 11, 34, 42]));
    assert_eq!(first(vec![union(vec![])]), these([8]));
    assert_eq!(first(vec![union(vec![vec![]])]), these([8]));
    let variants = vec![vec![field(0, U8)], fields()];
    assert_eq!(first(vec![union(variants)]), these([11, 16, 19, 42, 50]));
}

#[test]
fn names() {
    let named = Tree::Named(1);
    assert_eq!(beside(named.clone(), &[]), any(), "missing");
    assert_eq!(beside(named.clone(), &[Slot::Empty]), any());
    assert_eq!(beside(named.clone(), &[Slot::Config]), any());
    let newtype = Slot::Newtype {
        inner: U32,
        terminal: wrap(OPTIONAL, U8),
    };
    assert_eq!(beside(named.clone(), &[newtype]), these([1, 9]));
    let enumeration = Slot::Enum {
        backing: 0,
        non_exhaustive: 0,
        bits: 30,
        ordinals: live(vec![5, 2]),
    };
    let flags = Slot::Flags {
        bytes: 7,
        bits: live(vec![9]),
    };
    let slots = vec![
        message(0, vec![field(0, Tree::Named(1))]),
        message(1, vec![field(0, Tree::Named(2)), field(0, Tree::Named(3))]),
        enumeration,
        flags,
    ];
    let mut schema = declared(vec![0], slots);
    assert_eq!(all(&schema)[0], these([3 + 16]), "declared: computed");
    schema.declarations = vec![0];
    assert_eq!(all(&schema)[0], these([30 + 56]), "undeclared: stored");
}

#[test]
fn values_are_finite() {
    // By no number of steps.
    assert_eq!(of(ITSELF), Lengths::NONE);
    assert_eq!(of(wrap(VEC2, ITSELF)), Lengths::NONE);
    assert_eq!(of(pair(RESULT, ITSELF, ITSELF)), Lengths::NONE);
    let both = message(0, vec![field(0, wrap(OPTIONAL, U8)), field(0, ITSELF)]);
    assert_eq!(first(vec![both]), Lengths::NONE);
    // A list: 1 for its end, 1 + 3 for each further part.
    let next = wrap(OPTIONAL, ITSELF);
    let list = message(0, vec![field(0, Tree::SubByte(0, 3)), field(0, next)]);
    let mut lengths: Lengths = (0..HORIZON / 4).map(|parts| 4 + 4 * parts).collect();
    lengths.put(HORIZON);
    assert_eq!(first(vec![list]), lengths);
    // A union that ends: 8, or 8 more than itself.
    let ends = union(vec![vec![], vec![field(0, ITSELF)]]);
    let mut lengths: Lengths = (1..HORIZON / 8).map(|times| 8 * times).collect();
    lengths.put(HORIZON);
    assert_eq!(first(vec![ends]), lengths);
}

/// On the head board each field of a message or variant takes whole bytes, and
/// nothing else does.
#[test]
fn fields_are_rounded() {
    let first = |slots: Vec<Slot>| {
        let schema = compiled(&declared(vec![0; 3], slots), Edition::One);
        lengths_of_slots(&schema, Layout::Aligned)[0]
    };
    let of = |tree: Tree| first(vec![message(0, vec![field(0, tree)])]);
    assert_eq!(of(VOID), these([0]));
    assert_eq!(of(BOOL), these([8]));
    assert_eq!(of(wrap(OPTIONAL, BOOL)), these([8]));
    assert_eq!(of(wrap(OPTIONAL, U8)), these([8, 16]));
    assert_eq!(of(fixed(BOOL, 9)), these([16]), "parts are not");
    assert_eq!(of(fixed(wrap(OPTIONAL, BOOL), 9)), these([16, 24]));
    let mut any: Lengths = (0..HORIZON / 8).map(|bytes| 8 * bytes).collect();
    any.put(HORIZON);
    assert_eq!(of(Tree::Semantic(0)), any);
    let each = vec![field(0, BOOL), field(0, wrap(OPTIONAL, U8))];
    assert_eq!(first(vec![message(0, each.clone())]), these([16, 24]));
    let variants = vec![vec![field(0, BOOL)], each, vec![]];
    assert_eq!(first(vec![union(variants)]), these([8, 16, 24, 32]));
    assert_eq!(first(vec![union(vec![])]), these([8]));
    // A message inside a type has whole bytes of its own.
    let inner = message(1, vec![field(0, BOOL)]);
    let named = fixed(Tree::Named(1), 3);
    let outer = message(0, vec![field(0, wrap(OPTIONAL, named))]);
    assert_eq!(first(vec![outer, inner]), these([8, 32]));
    // A list: 16 for its end, 8 + the bytes of 1 + the rest for each part more.
    let next = wrap(OPTIONAL, ITSELF);
    let list = message(0, vec![field(0, Tree::SubByte(0, 3)), field(0, next)]);
    let mut lengths: Lengths = (1..HORIZON / 16).map(|parts| 16 * parts).collect();
    lengths.put(HORIZON);
    assert_eq!(first(vec![list]), lengths);
}

/// In edition two retired ones count for a declared width, and for no other.
#[test]
fn retired_ones_hold_their_width() {
    let ordinals = |live, retired| Ordinals {
        live: vec![live],
        retired: vec![retired],
    };
    let enumeration = Slot::Enum {
        backing: 0,
        non_exhaustive: 0,
        bits: 5,
        ordinals: ordinals(3, 40),
    };
    let flags = Slot::Flags {
        bytes: 3,
        bits: ordinals(0, 9),
    };
    let fields = [wrap(OPTIONAL, Tree::Named(1)), Tree::Named(2)].map(|tree| field(0, tree));
    let slots = vec![message(0, fields.to_vec()), enumeration, flags];
    let mut schema = declared(vec![0], slots);
    let lengths = |schema: &Schema, entry: Entry| {
        let compiled = compiled(schema, entry.edition);
        lengths_of_slots(&compiled, entry.layout)[0]
    };
    // Six bits and two bytes; without retired ones two bits and one byte.
    assert_eq!(lengths(&schema, Entry::TWO), these([17, 23]));
    assert_eq!(lengths(&schema, Entry::ALIGNED_TWO), these([24]));
    assert_eq!(lengths(&schema, Entry::ONE), these([9, 11]));
    schema.declarations = vec![0];
    assert_eq!(lengths(&schema, Entry::TWO), these([25, 30]));
    assert_eq!(lengths(&schema, Entry::ONE), these([25, 30]));
}

#[test]
fn sizes_brought_do_not_count() {
    let mut brings = message(1, vec![field(0, U8)]);
    if let Slot::Message { stored, .. } = &mut brings {
        *stored = Stored::Fixed(99);
    }
    assert_eq!(beside(Tree::Named(1), &[brings]), these([8]));
}

#[test]
fn sums_and_shifts_at_the_horizon() {
    let last = Lengths::one(HORIZON - 1);
    assert_eq!(last.longer(1), Lengths::one(HORIZON));
    assert_eq!(last.longer(HORIZON + 5), Lengths::one(HORIZON));
    assert!(last.plus(&Lengths::one(1)).reaches_beyond());
    assert_eq!(last.plus(&Lengths::one(0)), last);
    assert_eq!(last.plus(&Lengths::NONE), Lengths::NONE);
    assert_eq!(Lengths::one(HORIZON).plus(&Lengths::NONE), Lengths::NONE);
    assert_eq!(last.in_bytes(), Lengths::one(HORIZON));
    assert_eq!(Lengths::one(HORIZON).in_bytes(), Lengths::one(HORIZON));
    assert_eq!(
        Lengths::one(HORIZON - 8).in_bytes().ends(),
        Some((HORIZON - 8, HORIZON - 8))
    );
    assert_eq!(Lengths::NONE.in_bytes(), Lengths::NONE);
    assert_eq!(last.has(HORIZON), Some(false));
    assert_eq!(Lengths::one(HORIZON).has(HORIZON), None);
}

/// Sums of sets against trying all pairs.
#[test]
fn sums_are_all_pairs() {
    let mut random = oracle::random::Random::new(SEED, 0);
    for _ in 0..300 {
        let mut set = || -> Vec<u64> {
            let bound = random.pick(&[5, 70, 700]);
            let count = random.below(40);
            (0..count).map(|_| random.below(bound)).collect()
        };
        let (one, other) = (set(), set());
        let pairs = one.iter().flat_map(|a| other.iter().map(move |b| a + b));
        let sum: Lengths = pairs.collect();
        let (one, other): (Lengths, Lengths) =
            (one.into_iter().collect(), other.into_iter().collect());
        assert_eq!(one.plus(&other), sum);
        let three = one.plus(&one).plus(&one);
        assert_eq!(one.times(3), three);
    }
}

/// A schema, what its lengths say for an entry, and the table worked out here.
struct Prepared {
    schema: Schema,
    facts: Facts,
    sizes: Vec<u64>,
}

/// Made once for all wrong sizes.
fn prepared(entry: Entry) -> &'static [Prepared] {
    const ENTRIES: usize = Entry::ALL.len();
    static ALL: [OnceLock<Vec<Prepared>>; ENTRIES] = [const { OnceLock::new() }; ENTRIES];
    let at = Entry::ALL.iter().position(|&one| one == entry);
    ALL[at.expect("one of them")].get_or_init(|| {
        let one = |number| {
            let schema = schema(SEED, number, entry);
            let whole = Whole::sizes_of(&schema.bytes(entry.edition), entry);
            let answer = whole.sizes_answer(3 * schema.slots.len() as u64);
            let Ok(Answer::Accepted { sizes, .. }) = answer else {
                panic!("{answer:?}");
            };
            Prepared {
                facts: Facts::of(&compiled(&schema, entry.edition), entry.layout),
                schema,
                sizes,
            }
        };
        (0..6_000).map(one).collect()
    })
}

#[test]
fn right_sizes_are_the_rusts() {
    for entry in Entry::ALL {
        for Prepared { schema, sizes, .. } in prepared(entry) {
            let table = table(schema, entry.layout, Wrong::Nothing);
            assert_eq!(&table, sizes, "{schema:?}");
        }
    }
}

fn found(entry: Entry, wrong: Wrong) -> Vec<Violation> {
    let judged = prepared(entry).iter().filter_map(|one| {
        let table = table(&one.schema, entry.layout, wrong);
        one.facts.judge(&table, &mut Tally::default())
    });
    judged.collect()
}

#[test]
fn wrong_sizes_are_told() {
    for &wrong in Wrong::ALL {
        let found = found(Entry::ONE, wrong);
        let told = found.len();
        let right = wrong == Wrong::Nothing || NOT_ASKED.contains(&wrong);
        assert_eq!(told == 0, right, "{wrong:?}: {told} {:?}", found.first());
        println!("{wrong:?}: {told}");
        if NOT_ASKED.contains(&wrong) {
            let differs = |one: &Prepared| table(&one.schema, Layout::Packed, wrong) != one.sizes;
            assert!(prepared(Entry::ONE).iter().any(differs), "{wrong:?}");
        }
    }
}

#[test]
fn wrong_rounding_is_told() {
    assert_eq!(found(Entry::ALIGNED, Wrong::Nothing), []);
    for &wrong in Wrong::OF_ROUNDING {
        let told = found(Entry::ALIGNED, wrong).len();
        println!("{wrong:?}: {told}");
        assert!(told > 0, "{wrong:?}");
    }
}

#[test]
fn wrong_widths_are_told() {
    for entry in [Entry::TWO, Entry::ALIGNED_TWO] {
        assert_eq!(found(entry, Wrong::Nothing), []);
        for &wrong in Wrong::OF_RETIRED {
            let told = found(entry, wrong).len();
            println!("{wrong:?}: {told}");
            assert!(told > 0, "{wrong:?}");
        }
    }
}

#[test]
fn wrong_limits_are_told() {
    for entry in [Entry::TWO, Entry::ALIGNED_TWO] {
        for &wrong in Wrong::OF_LIMITS {
            let told = found(entry, wrong).len();
            println!("{wrong:?}: {told}");
            let rounds = wrong != Wrong::ElementsRounded || entry == Entry::ALIGNED_TWO;
            let asked = rounds && !LIMITS_NOT_ASKED.contains(&wrong);
            assert_eq!(told > 0, asked, "{wrong:?}, {entry:?}");
            let differs = |one: &Prepared| table(&one.schema, entry.layout, wrong) != one.sizes;
            let differs = prepared(entry).iter().any(differs);
            assert_eq!(differs, rounds, "{wrong:?}, {entry:?}");
        }
    }
}

/// Wrong refusals are seen where sizes are large; small schemas have none.
#[test]
fn wrong_refusals_are_told_elsewhere() {
    let entry = Entry::TWO;
    on_long_stack(|| {
        for &wrong in Wrong::OF_REFUSALS {
            for Prepared { schema, sizes, .. } in prepared(entry) {
                let worked = worked(schema, entry.layout, wrong);
                assert!(worked.refused.is_none(), "{wrong:?}");
                assert!(worked.too_long || &worked.table == sizes, "{wrong:?}");
            }
        }
    });
}

/// Lengths that are not rounded do not go with sizes that are, nor the other
/// way round; nor do those of edition one with sizes of edition two.
#[test]
fn lengths_go_with_their_entry() {
    let told = |lengths: Entry, sizes: Entry| {
        let broken = prepared(sizes).iter().filter(|one| {
            let facts = Facts::of(&compiled(&one.schema, lengths.edition), lengths.layout);
            facts.judge(&one.sizes, &mut Tally::default()).is_some()
        });
        broken.count()
    };
    assert_eq!(told(Entry::ALIGNED, Entry::ALIGNED), 0);
    assert!(told(Entry::ONE, Entry::ALIGNED) > 1_000);
    assert!(told(Entry::ALIGNED, Entry::ONE) > 1_000);
    assert_eq!(told(Entry::TWO, Entry::TWO), 0);
    assert!(told(Entry::ONE, Entry::TWO) > 100);
    assert_eq!(told(Entry::ALIGNED_TWO, Entry::ALIGNED_TWO), 0);
    assert!(told(Entry::ALIGNED, Entry::ALIGNED_TWO) > 50);
}

/// Each clause is the one that tells some wrong size.
#[test]
fn each_clause_tells_one() {
    let wrong = [
        (Wrong::LargestLess, Clause::Enclosure),
        (Wrong::ResultOfLesser, Clause::Enclosure),
        (Wrong::SmallestLess, Clause::Smallest),
        (Wrong::LargestMore, Clause::Largest),
        (Wrong::FixedAsBounded, Clause::Fixed),
    ];
    for (wrong, clause) in wrong {
        let told = |one: &Violation| one.clause == Some(clause);
        let found = found(Entry::ONE, wrong);
        assert!(found.iter().any(told), "{wrong:?} by {clause:?}");
    }
    // A type without lengths: its row is enclosing whatever it says.
    let schema = declared(vec![0], vec![message(0, vec![field(0, ITSELF)])]);
    let facts = facts(&schema);
    let judged = facts.judge(&[2, 5, 3], &mut Tally::default());
    assert_eq!(judged.map(|one| one.clause), Some(Some(Clause::Order)));
    assert_eq!(facts.judge(&[3, 0, 0], &mut Tally::default()), None);
}

#[test]
fn provisos_are_decided() {
    let brings = |size: Stored| {
        let mut slot = message(0, vec![field(0, wrap(OPTIONAL, U8))]);
        if let Slot::Message { stored, .. } = &mut slot {
            *stored = size;
        }
        let user = message(1, vec![field(0, Tree::Named(0))]);
        let schema = Schema {
            names: vec![0],
            slots: vec![slot, user],
            declarations: vec![1],
        };
        facts(&schema)
    };
    let sizes = [
        (Stored::Bounded(1, 9), Truth::Yes, true),
        (Stored::Bounded(0, 12), Truth::Yes, true),
        (Stored::Open(1), Truth::Yes, true),
        (Stored::Open(2), Truth::No, true),
        (Stored::Bounded(1, 8), Truth::No, true),
        (Stored::Fixed(9), Truth::No, true),
        (Stored::Bounded(9, 1), Truth::No, false),
    ];
    for (size, enclosing, ordered) in sizes {
        let facts = brings(size.clone());
        assert_eq!(
            (facts.enclosing, facts.ordered),
            (enclosing, ordered),
            "{size:?}"
        );
        assert!(!facts.none_brought);
    }
    assert!(brings(Stored::None).none_brought);
}

#[test]
fn leading_back_follows_parts() {
    let back = |tree: Tree, last: u64| {
        let encoding = Encoding { deltas: 1, last };
        let field = Field {
            encoding,
            ..field(0, tree)
        };
        let schema = declared(vec![0], vec![message(0, vec![field])]);
        facts(&schema).back[0]
    };
    for tree in [
        ITSELF,
        wrap(OPTIONAL, ITSELF),
        fixed(ITSELF, 0),
        wrap(MAT4, ITSELF),
        pair(RESULT, U8, ITSELF),
    ] {
        assert!(back(tree.clone(), 0), "{tree:?}");
        assert!(!back(tree, 1), "a Varint has no parts");
    }
    for tree in [
        wrap(ARRAY, ITSELF),
        wrap(SET, ITSELF),
        pair(MAP, ITSELF, ITSELF),
        U8,
    ] {
        assert!(!back(tree.clone(), 0), "{tree:?}");
    }
    // One that is reached leads back, the type itself does not.
    let slots = vec![
        message(0, vec![field(0, Tree::Named(1))]),
        message(1, vec![field(0, wrap(OPTIONAL, Tree::Named(1)))]),
    ];
    let schema = declared(vec![0], slots);
    assert_eq!(facts(&schema).back, [true, true]);
}

/// In edition two the elements of a field that has a limit of them are parts.
#[test]
fn leading_back_follows_limited_elements() {
    let back = |tree: Tree, limit: u64, last: u64| {
        let field = Field {
            encoding: Encoding { deltas: 1, last },
            limit,
            ..field(0, tree)
        };
        let schema = declared(vec![0], vec![message(0, vec![field])]);
        Facts::of(&compiled(&schema, Edition::Two), Layout::Packed).back[0]
    };
    for tree in [
        wrap(ARRAY, ITSELF),
        wrap(SET, wrap(OPTIONAL, ITSELF)),
        pair(MAP, ITSELF, U8),
        pair(MAP, U8, ITSELF),
    ] {
        assert!(back(tree.clone(), 1, 0), "{tree:?}");
        assert!(!back(tree.clone(), 0, 0), "{tree:?}");
        assert!(!back(tree.clone(), 1, 1), "{tree:?}");
        assert!(!back(wrap(ARRAY, tree), 1, 0));
    }
    assert!(!back(wrap(OPTIONAL, wrap(ARRAY, ITSELF)), 1, 0));
}

fn reference(image: &[u8], sizes: &mut [u64]) -> Verdict {
    let size = REFERENCE.sizes.expect("the reference has all");
    size(image, sizes)
}

/// The first broken row of a library, in the smallest image found.
fn broken_by(sizes: Sizer) -> Broken {
    let library = Library {
        sizes: Some(sizes),
        ..REFERENCE
    };
    let subject = Subject {
        name: "wrong",
        table: Table::Sizes(library),
    };
    let summary = run(400, SEED, Entry::ONE, &[subject]);
    summary.broken.expect("it is told")
}

#[test]
fn a_wrong_library_is_told_by_a_small_image() {
    let broken = broken_by(|image, sizes| {
        let verdict = reference(image, sizes);
        let rows = sizes.chunks_mut(3).filter(|row| row[0] == 2);
        rows.for_each(|row| row[2] = row[2].saturating_sub(1));
        verdict
    });
    assert!(broken.told.contains("against Enclosure"), "{}", broken.told);
    // One slot, declared: a message of one Optional Bool, or less.
    assert!(broken.image.len() <= 15, "{:?}", broken.image);

    let broken = broken_by(|_, _| Verdict {
        number: 10,
        value: 0,
    });
    assert_eq!(broken.told, "an accepted image is refused");
    assert_eq!(broken.image, [0, 0, 0]);
}

#[test]
fn the_rust_meets_demand_three() {
    let count = 3_000;
    for entry in Entry::ALL {
        let summary = run(count, 10, entry, &subjects(entry, None));
        assert!(summary.broken.is_none(), "{:?}", summary.broken);
        assert_eq!(summary.too_low(count, entry), Vec::<String>::new());
        let (_, tally) = &summary.small.tallies[0];
        for proviso in Proviso::ALL {
            // Where no size is brought, nothing hangs on those that are.
            let needed = entry.layout == Layout::Packed || proviso == Proviso::NotBack;
            assert_eq!(tally.needed[proviso as usize] > 0, needed, "{proviso:?}");
        }
        assert!(tally.held.iter().all(|&held| held > 0), "{tally:?}");
    }
}

/// A library that packs on the head board is told by a small image, and so is
/// one that rounds elsewhere.
#[test]
fn a_library_of_the_other_layout_is_told() {
    for (entry, library) in [
        (Entry::ALIGNED, REFERENCE),
        (Entry::ONE, REFERENCE_ALIGNED),
        (Entry::ALIGNED_TWO, REFERENCE_TWO),
        (Entry::TWO, REFERENCE_ALIGNED_TWO),
    ] {
        let subject = Subject {
            name: "wrong",
            table: Table::Check(library),
        };
        let broken = run(400, SEED, entry, &[subject]).broken;
        let broken = broken.expect("it is told");
        // Few slots, one declared: a message of one Bool.
        assert!(broken.image.len() <= 18, "{:?}", broken.image);
    }
}

/// The size table without retired ones, of an image of edition two.
fn by_live_ones(
    library: Library,
    image: &[u8],
    sizes: &mut [u64],
    findings: &mut [u32],
) -> Verdict {
    let schema = import(image, Edition::Two).expect("accepted").schema;
    let left = export(&schema, Edition::One).expect("what was read fits");
    let check = library.check.expect("the reference has all");
    check(&left, sizes, findings)
}

#[test]
fn a_library_by_live_ones_is_told() {
    let packed = Library {
        check: Some(|image, sizes, findings| by_live_ones(REFERENCE, image, sizes, findings)),
        ..REFERENCE_TWO
    };
    let aligned = Library {
        check: Some(|image, sizes, findings| {
            by_live_ones(REFERENCE_ALIGNED, image, sizes, findings)
        }),
        ..REFERENCE_ALIGNED_TWO
    };
    for library in [packed, aligned] {
        let subject = Subject {
            name: "wrong",
            table: Table::Check(library),
        };
        let broken = run(2_000, SEED, library.entry, &[subject]).broken;
        let broken = broken.expect("it is told");
        // A message of one field, and an enum or flags with a retired one.
        assert!(broken.image.len() <= 28, "{:?}", broken.image);
    }
}
