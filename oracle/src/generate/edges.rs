//! Refusals 11 and 14 by each operation on sizes: the greatest size of an
//! element that is accepted, and one bit more, with the answer that documents
//! 01 and 02 give.

use std::sync::OnceLock;

use super::first::{by_product, by_sum, first_steps, PRODUCT, SUM};
use crate::format::SIZE_LIMIT;
use crate::model::{
    field, fixed, message, pair, union, wrap, Encoding, Field, Schema, Slot, Stored, Tree, BOOL,
    OPTIONAL, RESULT, VEC2,
};
use crate::random::Random;

/// A schema, and its refusal if it is not accepted, in either edition.
#[derive(Debug)]
pub struct Edge {
    pub what: String,
    pub schema: Schema,
    pub refused: Option<(u64, u64)>,
}

pub fn add(all: &mut Vec<Edge>, what: String, schema: Schema, refused: Option<(u64, u64)>) {
    all.push(Edge {
        what,
        schema,
        refused,
    });
}

/// All edges, made once.
pub fn all_edges() -> &'static [Edge] {
    static ALL: OnceLock<Vec<Edge>> = OnceLock::new();
    ALL.get_or_init(|| {
        let mut all = Vec::new();
        for operation in OPERATIONS {
            for form in FORMS {
                for around in AROUND {
                    edge(&mut all, operation, form, around);
                }
            }
            for around in AROUND {
                past_before(&mut all, operation, around);
            }
        }
        running_totals(&mut all);
        first_steps(&mut all);
        all
    })
}

pub fn edges(random: &mut Random) -> Schema {
    let all = all_edges();
    all[random.below(all.len() as u64) as usize].schema.clone()
}

/// What an operation makes of an element, the greatest smallest and largest
/// size that the element may have, none where it does not count, and the
/// refusal's number above.
struct Operation {
    number: u64,
    what: &'static str,
    least: Option<u64>,
    most: Option<u64>,
    make: fn(Tree) -> Slot,
}

const fn operation(
    number: u64,
    what: &'static str,
    least: Option<u64>,
    most: Option<u64>,
    make: fn(Tree) -> Slot,
) -> Operation {
    Operation {
        number,
        what,
        least,
        most,
        make,
    }
}

const fn below(bits: u64) -> Option<u64> {
    Some(SIZE_LIMIT - bits)
}

const fn part(factor: u64) -> Option<u64> {
    Some(SIZE_LIMIT / factor)
}

const OPERATIONS: &[Operation] = &[
    operation(SUM, "field alone", None, None, one),
    operation(SUM, "sum", below(1), below(1), |part| of(&[part, BOOL])),
    operation(SUM, "sum after", below(1), below(1), |part| {
        of(&[BOOL, part])
    }),
    operation(SUM, "sum of itself", part(2), part(2), |part| {
        of(&[part.clone(), part])
    }),
    operation(SUM, "sum with Varint", below(8), below(24), |part| {
        encoded(part, 1, Tree::Primitive(2))
    }),
    operation(SUM, "sum with ZigZag", below(8), below(80), |part| {
        encoded(part, 2, BOOL)
    }),
    operation(SUM, "Optional", None, below(1), |part| {
        one(wrap(OPTIONAL, part))
    }),
    operation(SUM, "Result", below(1), below(1), |part| {
        one(pair(RESULT, part.clone(), part))
    }),
    operation(SUM, "Result ok", None, below(1), |part| {
        one(pair(RESULT, part, BOOL))
    }),
    operation(SUM, "Result err", None, below(1), |part| {
        one(pair(RESULT, BOOL, part))
    }),
    operation(PRODUCT, "fixed array of 3", part(3), None, |part| {
        one(fixed(part, 3))
    }),
    operation(PRODUCT, "fixed array of 0", None, None, |part| {
        one(fixed(part, 0))
    }),
    operation(PRODUCT, "Vec2", part(2), part(2), |part| {
        one(wrap(VEC2, part))
    }),
    operation(PRODUCT, "Vec3", part(3), part(3), |part| {
        one(wrap(11, part))
    }),
    operation(PRODUCT, "Vec4", part(4), part(4), |part| {
        one(wrap(12, part))
    }),
    operation(PRODUCT, "Quat", part(4), part(4), |part| {
        one(wrap(13, part))
    }),
    operation(PRODUCT, "Mat3", part(9), part(9), |part| {
        one(wrap(14, part))
    }),
    operation(PRODUCT, "Mat4", part(16), part(16), |part| {
        one(wrap(15, part))
    }),
    operation(PRODUCT, "Optional Vec2", part(2), part(2), |part| {
        one(wrap(OPTIONAL, wrap(VEC2, part)))
    }),
    operation(
        PRODUCT,
        "Vec2 Optional",
        None,
        Some(SIZE_LIMIT / 2 - 1),
        |part| one(wrap(VEC2, wrap(OPTIONAL, part))),
    ),
    operation(SUM, "variant", below(8), below(8), |part| {
        union(vec![vec![field(0, part)]])
    }),
    operation(SUM, "variant beside an empty one", None, below(8), |part| {
        union(vec![vec![], vec![field(0, part)]])
    }),
    operation(SUM, "sum in a variant", below(8), below(8), |part| {
        union(vec![vec![field(0, part), field(0, Tree::Primitive(13))]])
    }),
    operation(
        SUM,
        "running total of a variant",
        below(1),
        below(8 + 1),
        |part| union(vec![vec![field(0, part), field(0, BOOL)], vec![]]),
    ),
];

fn of(trees: &[Tree]) -> Slot {
    message(0, trees.iter().map(|tree| field(0, tree.clone())).collect())
}

fn one(tree: Tree) -> Slot {
    of(&[tree])
}

fn encoded(part: Tree, last: u64, tree: Tree) -> Slot {
    let other = Field {
        encoding: Encoding { deltas: 1, last },
        ..field(0, tree)
    };
    message(0, vec![field(0, part), other])
}

/// How the element has its size.
#[derive(Debug, Clone, Copy, PartialEq, Eq)]
enum Form {
    /// A fixed array of Bool.
    Array,
    /// A stored size of each kind; the last has a largest of 0.
    Fixed,
    Open,
    Largest,
    Both,
    Unordered,
    /// A stored size of 1 at the first turn, the size at the second.
    Turn,
}

const FORMS: [Form; 7] = [
    Form::Array,
    Form::Fixed,
    Form::Open,
    Form::Largest,
    Form::Both,
    Form::Unordered,
    Form::Turn,
];

impl Form {
    fn has_least(self) -> bool {
        self != Form::Largest
    }

    fn has_most(self) -> bool {
        !matches!(self, Form::Open | Form::Unordered)
    }

    fn tree(self, bits: u64) -> Tree {
        match self {
            Form::Array => fixed(BOOL, bits),
            _ => Tree::Named(ELEMENT),
        }
    }

    fn element(self, bits: u64) -> Slot {
        let (stored, tree) = match self {
            Form::Array => (Stored::None, BOOL),
            Form::Fixed => (Stored::Fixed(bits), BOOL),
            Form::Open => (Stored::Open(bits), BOOL),
            Form::Largest => (Stored::Bounded(0, bits), BOOL),
            Form::Both => (Stored::Bounded(bits, bits), BOOL),
            Form::Unordered => (Stored::Bounded(bits, 0), BOOL),
            Form::Turn => (Stored::Fixed(1), fixed(BOOL, bits)),
        };
        Slot::Message {
            span: (0, 0),
            stored,
            fields: vec![field(0, tree)],
        }
    }
}

/// Slots: the operation, what is around it, the element, a newtype.
const AROUND_SLOT: u64 = 1;
const ELEMENT: u64 = 2;
const NEWTYPE: u64 = 3;

/// Where the operation stands.
#[derive(Debug, Clone, Copy)]
enum Around {
    /// In a declared slot, after other declarations.
    Declared,
    /// In a slot not declared, named by a declared message.
    Message,
    /// The same, through a newtype.
    Newtype,
    /// In a declared slot, after one that names it as a Varint.
    Varint,
}

const AROUND: [Around; 4] = [
    Around::Declared,
    Around::Message,
    Around::Newtype,
    Around::Varint,
];

impl Around {
    fn slot(self) -> Slot {
        match self {
            Around::Declared => message(AROUND_SLOT, vec![field(0, BOOL)]),
            Around::Message => message(AROUND_SLOT, vec![field(0, Tree::Named(0))]),
            // A Varint of the operation's slot asks for no size of it.
            Around::Varint => encoded(BOOL, 1, Tree::Named(0)),
            Around::Newtype => message(AROUND_SLOT, vec![field(0, Tree::Named(NEWTYPE))]),
        }
    }

    fn declarations(self, form: Form) -> Vec<u64> {
        let place = self.place();
        let mut list = match self {
            Around::Declared => vec![AROUND_SLOT, 512, place],
            Around::Varint => vec![AROUND_SLOT, place],
            _ => vec![place],
        };
        if form == Form::Turn {
            list.extend([ELEMENT, place]);
        }
        list
    }

    /// The declared slot that the operation is worked out for.
    fn place(self) -> u64 {
        match self {
            Around::Declared | Around::Varint => 0,
            Around::Message | Around::Newtype => AROUND_SLOT,
        }
    }
}

/// All slots, the first of them the operation's.
fn schema(first: Slot, around: Around, form: Form, bits: u64) -> Schema {
    let newtype = Slot::Newtype {
        inner: BOOL,
        terminal: Tree::Named(0),
    };
    Schema {
        names: vec![0],
        slots: vec![first, around.slot(), form.element(bits), newtype],
        declarations: around.declarations(form),
    }
}

fn edge(all: &mut Vec<Edge>, operation: &Operation, form: Form, around: Around) {
    let least = operation.least.filter(|_| form.has_least());
    let most = operation.most.filter(|_| form.has_most());
    let greatest = least.into_iter().chain(most).min();
    let what = format!("{} of {form:?} below {around:?}", operation.what);
    let mut add_edge = |bits, refused| {
        let first = (operation.make)(form.tree(bits));
        let schema = schema(first, around, form, bits);
        add(all, format!("{what}, {bits} bits"), schema, refused);
    };
    add_edge(greatest.unwrap_or(SIZE_LIMIT), None);
    if let Some(greatest) = greatest {
        add_edge(greatest - 1, None);
        add_edge(greatest + 1, Some((operation.number, around.place())));
    }
}

/// Elements that pass the limit themselves, before anything is made of them.
fn past_before(all: &mut Vec<Edge>, operation: &Operation, around: Around) {
    for (element, number) in [(by_sum(), SUM), (by_product(), PRODUCT)] {
        let what = format!("{} of {element:?} below {around:?}", operation.what);
        let schema = schema((operation.make)(element), around, Form::Array, 0);
        add(all, what, schema, Some((number, around.place())));
    }
}

/// Largest totals beside a field without one: it ends them only from there on.
fn running_totals(all: &mut Vec<Edge>) {
    let large = Tree::Named(1);
    let open = Tree::Semantic(0);
    let orders = [
        ("open field first", [&open, &large, &large], None),
        ("open field between", [&large, &open, &large], None),
        ("open field last", [&large, &large, &open], Some((SUM, 0))),
    ];
    for (what, trees, refused) in orders {
        let trees: Vec<Tree> = trees.into_iter().cloned().collect();
        let fields = trees.iter().map(|tree| field(0, tree.clone())).collect();
        for slot in [of(&trees), union(vec![vec![], fields])] {
            let schema = Schema {
                names: vec![0],
                slots: vec![slot, Form::Largest.element(SIZE_LIMIT)],
                declarations: vec![0],
            };
            add(all, what.into(), schema, refused);
        }
    }
}
