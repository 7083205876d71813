//! Sizes by the rules of documents 01 and 02 with one rule made wrong, so that it is
//! known what the enumerated lengths find, and the comparisons of the head board and
//! of limits.

use oracle::format::{Layout, SIZE_LIMIT};
use oracle::model::{Field, Ordinals, Schema, Slot, Stored, Tree, ARRAY, MAP, OPTIONAL, SET};

macro_rules! cases {
    ($($case:ident)* ; $($rounding:ident)* ; $($retired:ident)* ; $($limits:ident)* ;
     $($refusals:ident)*) => {
        #[derive(Debug, Clone, Copy, PartialEq, Eq)]
        pub enum Wrong { $($case,)* $($rounding,)* $($retired,)* $($limits,)* $($refusals),* }

        impl Wrong {
            pub const ALL: &[Wrong] = &[$(Wrong::$case),*];
            /// Wrong on the head board alone.
            pub const OF_ROUNDING: &[Wrong] = &[$(Wrong::$rounding),*];
            /// Wrong in edition two alone.
            pub const OF_RETIRED: &[Wrong] = &[$(Wrong::$retired),*];
            /// Wrong where limits bear on elements.
            pub const OF_LIMITS: &[Wrong] = &[$(Wrong::$limits),*];
            /// Wrong there alone where sizes are refused, or ought to be.
            pub const OF_REFUSALS: &[Wrong] = &[$(Wrong::$refusals),*];
        }
    };
}

cases! {
    Nothing
    BoolIsByte VoidIsBit SubByteLonger StringHasLargest StringFromByte RgbShort UuidLong BitsLonger
    VarintToWidth VarintFromNone ZigZagOfUnsigned ZigZagByType DeltaIgnored EncodingOfParts
    OptionalFromNone OptionalFromPart OptionalWithoutBit OptionalFixed
    ArrayFromNone ArrayHasLargest MapHasLargest SetFromMore
    FixedArrayOfElement FixedArrayOnce FixedArrayNeverFixed FixedArrayOfNoneIsOne
    ResultOfGreater ResultOfLesser ResultWithoutBit ResultOneLargest ResultFixed
    Vec2Longer Vec3Shorter Vec4Shorter QuatLonger Mat3Shorter Mat4Longer
    LastFieldLost EmptyMessageIsByte FixedAsBounded BoundedAsFixed OpenFieldLost
    UnionWithoutTag UnionOfGreatest UnionOfLeast UnionFirstVariant UnionOpenVariantLost UnionFixed
    EmptyUnionFromNone EmptyUnionFromMark
    WorkingIsNothing EnumAlwaysComputed EnumAlwaysStored EnumByCount
    FlagsInBytes FlagsAlwaysStored NewtypeByInner MissingIsNothing ConfigFromByte StoredNotUsed
    FirstTurnKept SmallestLess SmallestMore LargestLess LargestMore OpenCut StoredKept RowOfNone
    // Against the rules of 01, but not against demand 3.
    FixedArrayHasLargest LargestLost WorkingFromByte
    ;
    NotRounded SmallestNotRounded LargestNotRounded RoundedDown RoundedToNext RoundedToTwoBytes
    FixedNotRounded VariableNotRounded VariantsNotRounded NestedNotRounded LastNotRounded
    TotalsRounded PartsRounded NewtypesRounded EqualEndsFixed
    ;
    EnumByLive FlagsByLive ByRetiredAlone NotWithoutLive UndeclaredByRetired BackedByRetired
    LessThanEight RetiredByCount
    ;
    LimitIgnored LimitOfSetIgnored LimitOfMapIgnored LimitInVariantIgnored LimitUnderDeltaIgnored
    ZeroIsLimit LimitUnderOptional LimitInFixedArray LimitThroughNewtype LimitUnderVarint
    LimitOfInner OneGroup NoGroup GroupsOfNext OneElementLess LimitTimesSmallest OpenElementCut
    KeyAlone ValueAlone OneOfEntry SmallestOfElements FromNone LimitedFixed ElementsRounded
    ;
    SumForProduct ProductForSum ProductWraps EntryNotTested EntryByProduct ValueNotWorked
    SmallestAdded SmallestMultiplied UnlimitedWorked
}

/// Wrong, and yet demand 3 holds; the comparison with the Rust tells these. A
/// shortest value holds none of its own type, so a smallest for the slot that
/// is being worked out is never too much.
pub const NOT_ASKED: [Wrong; 3] = [
    Wrong::FixedArrayHasLargest,
    Wrong::LargestLost,
    Wrong::WorkingFromByte,
];

/// The same of limits: without a largest, a row says less.
pub const LIMITS_NOT_ASKED: [Wrong; 5] = [
    Wrong::LimitIgnored,
    Wrong::LimitOfSetIgnored,
    Wrong::LimitOfMapIgnored,
    Wrong::LimitInVariantIgnored,
    Wrong::LimitUnderDeltaIgnored,
];

/// Slots that may be gone through, all in all and one in another: a wrong rule can
/// go on without end.
const MOST_SLOTS: u64 = 400_000;
const MOST_DEEP: u64 = 5_000;

#[derive(Clone, Copy, PartialEq, Eq)]
struct Size {
    fixed: bool,
    least: u128,
    most: Option<u128>,
}

fn fixed(bits: u128) -> Size {
    Size {
        fixed: true,
        ..between(bits, Some(bits))
    }
}

fn between(least: u128, most: Option<u128>) -> Size {
    Size {
        fixed: false,
        least,
        most,
    }
}

/// What a wrong rule makes of a schema.
pub struct Worked {
    /// The size table, whatever is refused.
    pub table: Vec<u64>,
    /// The number and the slot of a refusal.
    pub refused: Option<(u64, u64)>,
    /// It would have gone on.
    pub too_long: bool,
}

/// The size table, with one rule made wrong; for sizes that are not refused.
pub fn table(schema: &Schema, layout: Layout, wrong: Wrong) -> Vec<u64> {
    worked(schema, layout, wrong).table
}

/// What comes of a schema, with one rule made wrong.
pub fn worked(schema: &Schema, layout: Layout, wrong: Wrong) -> Worked {
    let slots = schema.slots.len();
    let mut sizes = Sizes {
        schema,
        layout,
        wrong,
        stored: schema.slots.iter().map(brought).collect(),
        working: vec![false; slots],
        passed: None,
        left: MOST_SLOTS,
        depth: 0,
    };
    let mut refused = None;
    let mut turned = vec![false; slots];
    for &declared in &schema.declarations {
        let slot = declared as usize;
        let again = turned.get(slot) == Some(&true);
        let is = |one| wrong == one;
        match schema.slots.get(slot) {
            _ if is(Wrong::FirstTurnKept) && again => {}
            Some(Slot::Message { .. } | Slot::Union { .. }) => {
                if !is(Wrong::StoredKept) || sizes.stored[slot].is_none() {
                    sizes.stored[slot] = Some(sizes.work(slot));
                }
                turned[slot] = true;
            }
            _ => {}
        }
        if let Some(number) = sizes.passed {
            refused = refused.or(Some((number, declared)));
        }
    }
    Worked {
        table: sizes.table(&turned),
        refused,
        too_long: sizes.left == 0,
    }
}

fn row(size: Size) -> [u64; 3] {
    let least = size.least as u64;
    match size.most {
        Some(most) if size.fixed => [1, least, most as u64],
        Some(most) => [2, least, most as u64],
        None => [3, least, 0],
    }
}

fn brought(slot: &Slot) -> Option<Size> {
    match slot {
        Slot::Message { stored, .. } | Slot::Union { stored, .. } => match *stored {
            Stored::None => None,
            Stored::Fixed(bits) => Some(fixed(bits.into())),
            Stored::Open(least) => Some(between(least.into(), None)),
            Stored::Bounded(least, most) => Some(between(least.into(), Some(most.into()))),
        },
        _ => None,
    }
}

struct Sizes<'a> {
    schema: &'a Schema,
    layout: Layout,
    wrong: Wrong,
    stored: Vec<Option<Size>>,
    working: Vec<bool>,
    /// The number of the first step past the limit.
    passed: Option<u64>,
    left: u64,
    depth: u64,
}

impl Sizes<'_> {
    /// Three numbers a slot, those that had a turn by the row rule.
    fn table(&self, turned: &[bool]) -> Vec<u64> {
        let rows = (0..turned.len()).map(|slot| match &self.schema.slots[slot] {
            Slot::Enum { .. } => [4, self.enum_bits(slot) as u64, 0],
            Slot::Flags { .. } => [5, self.flags_bytes(slot) as u64, 0],
            _ => match self.stored[slot] {
                None => [0, 0, 0],
                Some(size) if turned[slot] => self.row(size),
                Some(size) => row(size),
            },
        });
        rows.flatten().collect()
    }

    /// What is past the limit stays just past it.
    fn within(&mut self, bits: u128, number: u64) -> u128 {
        let most = u128::from(SIZE_LIMIT);
        if bits > most {
            self.passed.get_or_insert(number);
        }
        bits.min(most + 1)
    }

    fn sum(&mut self, one: u128, other: u128) -> u128 {
        self.within(one + other, 11)
    }

    fn product(&mut self, bits: u128, factor: u128) -> u128 {
        self.within(bits * factor, 14)
    }

    fn raised(&mut self, most: Option<u128>, by: u128) -> Option<u128> {
        most.map(|most| self.sum(most, by))
    }

    /// Whether one slot more may be gone through inside those that are.
    fn enter(&mut self) -> bool {
        self.left = match self.depth < MOST_DEEP {
            true => self.left.saturating_sub(1),
            false => 0,
        };
        self.depth += u64::from(self.left > 0);
        self.left > 0
    }

    fn is(&self, wrong: Wrong) -> bool {
        self.wrong == wrong
    }

    /// One of two values, the second if this rule is wrong.
    fn unless<T>(&self, wrong: Wrong, right: T, otherwise: T) -> T {
        match self.is(wrong) {
            true => otherwise,
            false => right,
        }
    }

    /// The row of a declared message or union.
    fn row(&self, size: Size) -> [u64; 3] {
        let Size { least, most, .. } = size;
        match (self.wrong, most) {
            (Wrong::SmallestLess, _) => row(between(least.saturating_sub(1), most)),
            (Wrong::SmallestMore, _) => row(between(least + 1, most)),
            (Wrong::LargestLess, Some(most)) => row(between(least, most.checked_sub(1))),
            (Wrong::LargestMore, Some(most)) => row(between(least, Some(most + 1))),
            (Wrong::FixedAsBounded, _) => row(between(least, most)),
            (Wrong::BoundedAsFixed, Some(most)) => row(fixed(most)),
            (Wrong::OpenCut, None) => row(between(least, Some(least + 200))),
            (Wrong::LargestLost, Some(_)) if !size.fixed => row(between(least, None)),
            (Wrong::RowOfNone, _) => [0, 0, 0],
            _ => row(size),
        }
    }

    fn work(&mut self, slot: usize) -> Size {
        let schema = self.schema;
        if !self.enter() {
            return between(0, None);
        }
        self.working[slot] = true;
        let size = match &schema.slots[slot] {
            Slot::Message { fields, .. } if fields.is_empty() => {
                fixed(self.unless(Wrong::EmptyMessageIsByte, 0, 8))
            }
            Slot::Message { fields, .. } => self.total(fields, false),
            Slot::Union { variants, .. } => self.extremes(variants),
            _ => unreachable!("only messages and unions are worked out"),
        };
        self.working[slot] = false;
        self.depth -= 1;
        size
    }

    fn total(&mut self, fields: &[Field], in_variant: bool) -> Size {
        let mut total = fixed(0);
        let kept = fields.len() - usize::from(self.is(Wrong::LastFieldLost) && fields.len() > 1);
        for (left, field) in (0..kept).rev().zip(fields) {
            let size = self.field(field, in_variant);
            let size = match self.is_laid(size, left == 0, in_variant) {
                true => self.laid(size),
                false => size,
            };
            total.least = self.sum(total.least, size.least);
            total.most = match (total.most, size.most) {
                (Some(total), Some(most)) => Some(self.sum(total, most)),
                (total, None) if self.is(Wrong::OpenFieldLost) => total,
                _ => None,
            };
            total.fixed &= size.fixed;
        }
        match self.is(Wrong::TotalsRounded) {
            true => self.laid(total),
            false => total,
        }
    }

    /// Whether a field's size is rounded.
    fn is_laid(&self, size: Size, last: bool, in_variant: bool) -> bool {
        let not = match self.wrong {
            Wrong::NotRounded | Wrong::TotalsRounded => true,
            Wrong::FixedNotRounded => size.fixed,
            Wrong::VariableNotRounded => !size.fixed,
            Wrong::VariantsNotRounded => in_variant,
            Wrong::NestedNotRounded => self.working.iter().filter(|&&working| working).count() > 1,
            Wrong::LastNotRounded => last,
            _ => false,
        };
        self.layout == Layout::Aligned && !not
    }

    fn laid(&mut self, size: Size) -> Size {
        let wrong = self.wrong;
        let up = |bits: u128| match wrong {
            Wrong::RoundedDown => bits - bits % 8,
            Wrong::RoundedToNext => bits - bits % 8 + 8,
            Wrong::RoundedToTwoBytes => bits.next_multiple_of(16),
            _ => bits.next_multiple_of(8),
        };
        let least = self.unless(Wrong::SmallestNotRounded, up(size.least), size.least);
        let most = self.unless(Wrong::LargestNotRounded, size.most.map(up), size.most);
        let least = self.sum(least, 0);
        let most = self.raised(most, 0);
        let equal = self.is(Wrong::EqualEndsFixed) && Some(least) == most;
        Size {
            fixed: size.fixed || equal,
            ..between(least, most)
        }
    }

    /// What a type has inside it.
    fn part(&mut self, tree: &Tree) -> Size {
        let size = self.of(tree);
        match self.is(Wrong::PartsRounded) {
            true => self.laid(size),
            false => size,
        }
    }

    fn extremes(&mut self, variants: &[Vec<Field>]) -> Size {
        let tag = self.unless(Wrong::UnionWithoutTag, 8, 0);
        if variants.is_empty() {
            return match self.wrong {
                Wrong::EmptyUnionFromNone => between(0, Some(8)),
                Wrong::EmptyUnionFromMark => between(9, Some(9)),
                _ => between(8, Some(8)),
            };
        }
        let mut totals: Vec<Size> = variants
            .iter()
            .map(|fields| self.total(fields, true))
            .collect();
        if self.is(Wrong::UnionFirstVariant) {
            totals.truncate(1);
        }
        let leasts = totals.iter().map(|total| total.least);
        let least = match self.wrong {
            Wrong::UnionOfGreatest => leasts.max(),
            _ => leasts.min(),
        };
        let open = totals.iter().any(|total| total.most.is_none());
        let mosts = totals.iter().filter_map(|total| total.most);
        let most = match self.wrong {
            Wrong::UnionOfLeast => mosts.min(),
            _ => mosts.max(),
        };
        let least = self.sum(tag, least.unwrap_or(0));
        let most = match open && !self.is(Wrong::UnionOpenVariantLost) {
            true => None,
            false => self.raised(most, tag),
        };
        Size {
            fixed: self.is(Wrong::UnionFixed) && totals.iter().all(|total| total.fixed),
            ..between(least, most)
        }
    }

    fn field(&mut self, field: &Field, in_variant: bool) -> Size {
        if let Some(size) = self.limited_field(field, in_variant) {
            return size;
        }
        let own = match field.tree {
            Tree::Primitive(number) => Some(number),
            _ => None,
        };
        let least = self.unless(Wrong::VarintFromNone, 8, 0);
        // U16, U32, U64 are 2, 3, 4; I16, I32, I64 are 6, 7, 8.
        let (short, middle) = match field.encoding.last {
            _ if self.is(Wrong::DeltaIgnored) && field.encoding.deltas > 0 => {
                return self.of(&field.tree);
            }
            0 => return self.of(&field.tree),
            1 => (2, 3),
            _ => self.unless(Wrong::ZigZagOfUnsigned, (6, 7), (2, 3)),
        };
        match own {
            None if self.is(Wrong::EncodingOfParts) => self.of(&field.tree),
            Some(number) if self.is(Wrong::VarintToWidth) => {
                between(least, Some(primitive(number)))
            }
            Some(8) if self.is(Wrong::ZigZagByType) => between(least, Some(72)),
            Some(number) if number == short => between(least, Some(24)),
            Some(number) if number == middle => between(least, Some(40)),
            _ => between(least, Some(80)),
        }
    }

    fn of(&mut self, tree: &Tree) -> Size {
        match tree {
            Tree::Primitive(0) => fixed(self.unless(Wrong::BoolIsByte, 1, 8)),
            Tree::Primitive(13) => fixed(self.unless(Wrong::VoidIsBit, 0, 1)),
            Tree::Primitive(number) => fixed(primitive(*number)),
            Tree::SubByte(_, bits) => {
                fixed(u128::from(*bits) + self.unless(Wrong::SubByteLonger, 0, 1))
            }
            Tree::Semantic(0 | 1) => between(
                self.unless(Wrong::StringFromByte, 0, 8),
                self.unless(Wrong::StringHasLargest, None, Some(500)),
            ),
            Tree::Semantic(2) => fixed(self.unless(Wrong::RgbShort, 24, 23)),
            Tree::Semantic(3) => fixed(self.unless(Wrong::UuidLong, 128, 136)),
            Tree::Semantic(4) => fixed(64),
            Tree::Semantic(_) => fixed(256),
            Tree::Bits(names) => fixed(names.len() as u128 + self.unless(Wrong::BitsLonger, 0, 1)),
            Tree::Named(id) => self.name(*id as usize),
            Tree::Fixed(part, count) => self.array(part, u128::from(*count)),
            Tree::Wrap(OPTIONAL, part) => self.optional(part),
            Tree::Wrap(ARRAY | SET, _) | Tree::Pair(MAP, _, _) => self.unlimited(tree),
            Tree::Pair(_, ok, err) => self.result(ok, err),
            Tree::Wrap(kind, part) => {
                let size = self.part(part);
                let factor = self.factor(*kind);
                Size {
                    most: size.most.map(|most| self.product(most, factor)),
                    least: self.product(size.least, factor),
                    ..size
                }
            }
            _ => unreachable!("no type"),
        }
    }

    fn unlimited(&mut self, tree: &Tree) -> Size {
        if self.is(Wrong::UnlimitedWorked) {
            match tree {
                Tree::Wrap(_, one) => {
                    self.of(one);
                }
                Tree::Pair(_, key, value) => {
                    self.of(key);
                    self.of(value);
                }
                _ => {}
            }
        }
        match tree {
            Tree::Wrap(ARRAY, _) => between(
                self.unless(Wrong::ArrayFromNone, 8, 0),
                self.unless(Wrong::ArrayHasLargest, None, Some(500)),
            ),
            Tree::Wrap(_, _) => between(self.unless(Wrong::SetFromMore, 8, 9), None),
            _ => between(8, self.unless(Wrong::MapHasLargest, None, Some(500))),
        }
    }

    /// The size of a field that its limit bears on.
    fn limited_field(&mut self, field: &Field, in_variant: bool) -> Option<Size> {
        let not = match self.wrong {
            Wrong::LimitIgnored => true,
            Wrong::LimitInVariantIgnored => in_variant,
            Wrong::LimitUnderDeltaIgnored => field.encoding.deltas > 0,
            _ => false,
        };
        let is_limit = field.limit > 0 || self.is(Wrong::ZeroIsLimit);
        let is_default = field.encoding.last == 0 || self.is(Wrong::LimitUnderVarint);
        match is_limit && is_default && !not {
            true => self.limited(&field.tree, field.limit),
            false => None,
        }
    }

    fn limited(&mut self, tree: &Tree, limit: u64) -> Option<Size> {
        let schema = self.schema;
        match tree {
            Tree::Wrap(SET, _) if self.is(Wrong::LimitOfSetIgnored) => None,
            Tree::Pair(MAP, _, _) if self.is(Wrong::LimitOfMapIgnored) => None,
            Tree::Wrap(ARRAY | SET, one) => {
                let one = match self.wrong {
                    Wrong::LimitOfInner => self.limited(one, limit),
                    _ => None,
                }
                .unwrap_or_else(|| self.element(one));
                Some(self.up_to(limit, one))
            }
            Tree::Pair(MAP, key, value) => {
                let entry = self.entry(key, value);
                Some(self.up_to(limit, entry))
            }
            Tree::Wrap(OPTIONAL, part) if self.is(Wrong::LimitUnderOptional) => {
                let most = self.limited(part, limit)?.most;
                Some(between(1, self.raised(most, 1)))
            }
            Tree::Fixed(part, count) if self.is(Wrong::LimitInFixedArray) => {
                let size = self.limited(part, limit)?;
                let count = u128::from(*count);
                let most = size.most.map(|most| self.product(most, count));
                Some(between(self.product(size.least, count), most))
            }
            Tree::Named(slot) if self.is(Wrong::LimitThroughNewtype) => {
                match schema.slots.get(*slot as usize) {
                    Some(Slot::Newtype { terminal, .. }) => self.limited(terminal, limit),
                    _ => None,
                }
            }
            _ => None,
        }
    }

    fn element(&mut self, tree: &Tree) -> Size {
        let size = self.of(tree);
        match self.layout == Layout::Aligned && self.is(Wrong::ElementsRounded) {
            true => self.laid(size),
            false => size,
        }
    }

    /// A key and a value; the sum of their smallest is not looked at.
    fn entry(&mut self, key: &Tree, value: &Tree) -> Size {
        let any = between(0, None);
        let key = self.element(key);
        let value = match self.is(Wrong::ValueNotWorked) && key.most.is_none() {
            true => any,
            false => self.element(value),
        };
        let most = match (self.wrong, key.most, value.most) {
            (Wrong::KeyAlone, most, _) | (Wrong::ValueAlone, _, most) => most,
            (Wrong::EntryNotTested, Some(key), Some(value)) => Some(key + value),
            (Wrong::EntryByProduct, Some(key), Some(value)) => Some(self.within(key + value, 14)),
            (_, Some(key), Some(value)) => Some(self.sum(key, value)),
            (Wrong::OneOfEntry, key, value) => key.or(value),
            _ => None,
        };
        if self.is(Wrong::SmallestAdded) {
            self.sum(key.least, value.least);
        }
        between(key.least + value.least, most)
    }

    /// So many elements at most.
    fn up_to(&mut self, limit: u64, element: Size) -> Size {
        let most = match self.wrong {
            Wrong::LimitTimesSmallest => element.most.map(|_| element.least),
            Wrong::OpenElementCut => element.most.or(Some(element.least)),
            _ => element.most,
        };
        let least = match self.wrong {
            Wrong::SmallestOfElements => 8 + element.least * u128::from(limit),
            Wrong::FromNone => 0,
            _ => 8,
        };
        if self.is(Wrong::SmallestMultiplied) {
            self.product(element.least, limit.into());
        }
        let Some(most) = most else {
            return between(least, None);
        };
        let groups = match self.wrong {
            Wrong::OneGroup => 1,
            Wrong::NoGroup => 0,
            Wrong::GroupsOfNext => groups(limit + 1),
            _ => groups(limit),
        };
        let count = limit.saturating_sub(self.unless(Wrong::OneElementLess, 0, 1));
        let all = most * u128::from(count);
        let all = match self.wrong {
            Wrong::SumForProduct => self.within(all, 11),
            Wrong::ProductWraps => self.within(all % (1 << 64), 14),
            _ => self.within(all, 14),
        };
        let number = self.unless(Wrong::ProductForSum, 11, 14);
        let most = self.within(8 * groups + all, number);
        Size {
            fixed: self.is(Wrong::LimitedFixed) && least == most,
            ..between(least, Some(most))
        }
    }

    fn factor(&self, kind: u64) -> u128 {
        match kind {
            10 => self.unless(Wrong::Vec2Longer, 2, 3),
            11 => self.unless(Wrong::Vec3Shorter, 3, 2),
            12 => self.unless(Wrong::Vec4Shorter, 4, 3),
            13 => self.unless(Wrong::QuatLonger, 4, 5),
            14 => self.unless(Wrong::Mat3Shorter, 9, 6),
            _ => self.unless(Wrong::Mat4Longer, 16, 17),
        }
    }

    fn optional(&mut self, part: &Tree) -> Size {
        let size = self.part(part);
        let bit = self.unless(Wrong::OptionalWithoutBit, 1, 0);
        let most = self.raised(size.most, bit);
        match self.wrong {
            Wrong::OptionalFromNone => between(0, most),
            Wrong::OptionalFromPart => between(1 + size.least, most),
            Wrong::OptionalFixed if size.fixed => fixed(1 + size.least),
            _ => between(1, most),
        }
    }

    fn array(&mut self, part: &Tree, count: u128) -> Size {
        let size = self.part(part);
        let count = match count {
            0 => self.unless(Wrong::FixedArrayOfNoneIsOne, 0, 1),
            count => count,
        };
        let least = self.product(size.least, count);
        if size.fixed && !self.is(Wrong::FixedArrayNeverFixed) {
            return fixed(least);
        }
        match self.wrong {
            Wrong::FixedArrayOnce => between(size.least, None),
            Wrong::FixedArrayOfElement => between(least, size.most),
            Wrong::FixedArrayHasLargest => between(least, size.most.map(|most| most * count)),
            _ => between(least, None),
        }
    }

    fn result(&mut self, ok: &Tree, err: &Tree) -> Size {
        let (ok, err) = (self.part(ok), self.part(err));
        let bit = self.unless(Wrong::ResultWithoutBit, 1, 0);
        let least = match self.wrong {
            Wrong::ResultOfGreater => ok.least.max(err.least),
            _ => ok.least.min(err.least),
        };
        let most = match (ok.most, err.most) {
            (Some(ok), Some(err)) if self.is(Wrong::ResultOfLesser) => Some(ok.min(err)),
            (Some(ok), Some(err)) => Some(ok.max(err)),
            (one, other) if self.is(Wrong::ResultOneLargest) => one.or(other),
            _ => None,
        };
        Size {
            fixed: self.is(Wrong::ResultFixed) && ok.fixed && ok == err,
            ..between(self.sum(bit, least), self.raised(most, bit))
        }
    }

    fn name(&mut self, slot: usize) -> Size {
        let any = between(0, None);
        let schema = self.schema;
        match schema.slots.get(slot) {
            None if self.is(Wrong::MissingIsNothing) => fixed(0),
            None => any,
            Some(_) if self.working[slot] => match self.wrong {
                Wrong::WorkingFromByte => between(8, None),
                Wrong::WorkingIsNothing => fixed(0),
                _ => any,
            },
            Some(Slot::Enum { .. }) => fixed(self.enum_bits(slot)),
            Some(Slot::Flags { .. }) => {
                fixed(self.flags_bytes(slot) * self.unless(Wrong::FlagsInBytes, 8, 1))
            }
            Some(Slot::Newtype { inner, terminal }) => {
                if !self.enter() {
                    return any;
                }
                let size = self.of(self.unless(Wrong::NewtypeByInner, terminal, inner));
                self.depth -= 1;
                match self.is(Wrong::NewtypesRounded) {
                    true => self.laid(size),
                    false => size,
                }
            }
            Some(Slot::Message { .. } | Slot::Union { .. }) => match self.stored[slot] {
                Some(size) if !self.is(Wrong::StoredNotUsed) => size,
                _ => self.work(slot),
            },
            Some(Slot::Config) => between(self.unless(Wrong::ConfigFromByte, 0, 8), None),
            Some(_) => any,
        }
    }

    fn declared(&self, slot: usize) -> bool {
        self.schema.declarations.contains(&(slot as u64))
    }

    fn enum_bits(&self, slot: usize) -> u128 {
        let Slot::Enum {
            backing,
            non_exhaustive,
            bits,
            ordinals,
        } = &self.schema.slots[slot]
        else {
            unreachable!("asked of enums")
        };
        let retires = !ordinals.retired.is_empty();
        match self.wrong {
            Wrong::EnumAlwaysComputed => {}
            Wrong::EnumAlwaysStored => return (*bits).into(),
            Wrong::UndeclaredByRetired if retires => {}
            _ if !self.declared(slot) => return (*bits).into(),
            _ => {}
        }
        let highest = match self.wrong {
            Wrong::EnumByCount => (ordinals.live.len() as u64).saturating_sub(1),
            _ => self.highest(ordinals, Wrong::EnumByLive),
        };
        let bits = u128::from(u64::BITS - highest.leading_zeros());
        let least = match self.wrong {
            Wrong::LessThanEight if retires => 1,
            _ => 1 + 7 * u128::from(*non_exhaustive),
        };
        match backing {
            0 => bits.max(least),
            width => (4u128 << width).max(self.unless(Wrong::BackedByRetired, 0, bits)),
        }
    }

    fn flags_bytes(&self, slot: usize) -> u128 {
        let Slot::Flags { bytes, bits } = &self.schema.slots[slot] else {
            unreachable!("asked of flags")
        };
        let computed = match self.wrong {
            Wrong::FlagsAlwaysStored => false,
            Wrong::UndeclaredByRetired if !bits.retired.is_empty() => true,
            _ => self.declared(slot),
        };
        match self.highest(bits, Wrong::FlagsByLive) {
            _ if !computed => (*bytes).into(),
            ..=7 => 1,
            8..=15 => 2,
            16..=31 => 4,
            _ => 8,
        }
    }

    /// Of live and retired ones; a schema of edition one has none retired.
    fn highest(&self, ordinals: &Ordinals, by_live: Wrong) -> u64 {
        let Ordinals {
            mut live,
            mut retired,
        } = ordinals.clone();
        match self.wrong {
            wrong if wrong == by_live => retired.clear(),
            Wrong::NotWithoutLive if live.is_empty() => retired.clear(),
            Wrong::ByRetiredAlone if !retired.is_empty() => live.clear(),
            Wrong::RetiredByCount => retired = vec![retired.len() as u64],
            _ => {}
        }
        live.into_iter().chain(retired).max().unwrap_or(0)
    }
}

/// Groups of seven bits, at least one.
fn groups(mut count: u64) -> u128 {
    let mut groups = 1;
    while count >= 128 {
        count /= 128;
        groups += 1;
    }
    groups
}

/// Bits of a primitive, by its number in an image; Bool and Void aside.
fn primitive(number: u64) -> u128 {
    match number {
        1 | 5 => 8,
        2 | 6 => 16,
        3 | 7 | 9 | 11 => 32,
        _ => 64,
    }
}
