//! How often trait fields are found, and missed by how much, by the kinds of
//! what was searched for. A wrong answer on a kind is seen only if there are
//! images for it, so each count has a floor.

use std::fmt;

use super::fields::Wanted;
use super::parts::{each_node, expression_kind, expression_parts, type_kind, type_parts};
use crate::ast::TypeExpr;
use crate::ir::{ResolvedType, POISON_TYPE_ID};

/// Kinds 0 to 18 of expressions, then a parameter, and what finds nothing.
pub const ROWS: [&str; 21] = [
    "Primitive",
    "SubByte",
    "Semantic",
    "name",
    "Optional",
    "Array",
    "FixedArray",
    "Set",
    "Map",
    "Result",
    "Vec2",
    "Vec3",
    "Vec4",
    "Quat",
    "Mat3",
    "Mat4",
    "BitsInline",
    "qualified",
    "generic",
    "parameter",
    "unfound",
];
const PARAMETER: usize = 19;
const NOTHING: usize = 20;

/// Where a kind stands: as the whole expression, inside it, or in an argument
/// that is put into it.
const PLACES: [&str; 3] = ["whole", "inside", "argument"];
const WHOLE: usize = 0;
const INSIDE: usize = 1;
const ARGUMENT: usize = 2;

/// How a type of a field of the name differs, if in one place only: in a
/// number of this kind, in the kind, in a level of this kind more or less, or
/// further in, in the first or only part of this kind or in the second.
const SLIPS: [&str; 5] = ["number", "kind", "level", "part", "second"];
const NUMBER: usize = 0;
const KIND: usize = 1;
const LEVEL: usize = 2;
const PART: usize = 3;

/// Images of a run for each of which a count has to be one more.
const IMAGES_EACH: u64 = 250;

type Table<const N: usize> = [[u64; N]; ROWS.len()];

#[derive(Debug, Clone, Default, PartialEq, Eq)]
pub struct FieldCounts {
    found: Table<3>,
    /// Not found, though a field of the name is there.
    missed: Table<3>,
    /// Missed, a field of the name differing in one place only.
    slips: Table<5>,
    /// Not found, though the type is there under another name.
    misnamed: u64,
}

impl FieldCounts {
    pub fn count(&mut self, wanted: &Wanted) {
        let found = wanted.found();
        let table = match found {
            true => &mut self.found,
            false => &mut self.missed,
        };
        if wanted.named_alike().next().is_some() {
            for (row, places) in occurring(wanted).iter().enumerate() {
                for (count, there) in table[row].iter_mut().zip(places) {
                    *count += u64::from(*there);
                }
            }
        }
        if !found {
            self.misnamed += u64::from(wanted.misnamed());
            for given in wanted.named_alike() {
                self.count_slip(&wanted.meaning, given);
            }
        }
    }

    fn count_slip(&mut self, wanted: &ResolvedType, given: &ResolvedType) {
        for (row, slip) in slips(wanted, given).unwrap_or_default() {
            self.slips[row][slip] += 1;
        }
    }

    pub fn add(&mut self, other: &FieldCounts) {
        add_table(&mut self.found, &other.found);
        add_table(&mut self.missed, &other.missed);
        add_table(&mut self.slips, &other.slips);
        self.misnamed += other.misnamed;
    }

    /// The least that each count has to be in a run of so many images.
    pub fn floor(images: u64) -> u64 {
        images / IMAGES_EACH
    }

    /// All counts, and what each is of.
    pub fn each(&self) -> Vec<(String, u64)> {
        let mut all = vec![("under another name".into(), self.misnamed)];
        for (row, name) in ROWS.iter().enumerate() {
            for (place, told) in PLACES.iter().enumerate() {
                if can_stand(row, place) {
                    all.push((format!("found, {name}, {told}"), self.found[row][place]));
                    all.push((format!("missed, {name}, {told}"), self.missed[row][place]));
                }
            }
            for (slip, told) in SLIPS.iter().enumerate() {
                if can_slip(row, slip) {
                    all.push((format!("one {told} off, {name}"), self.slips[row][slip]));
                }
            }
        }
        all
    }
}

fn add_table<const N: usize>(table: &mut Table<N>, more: &Table<N>) {
    for (row, more) in table.iter_mut().zip(more) {
        for (count, more) in row.iter_mut().zip(more) {
            *count += more;
        }
    }
}

fn is_type(row: usize) -> bool {
    row <= 16
}

/// An argument is a type.
fn can_stand(row: usize, place: usize) -> bool {
    place != ARGUMENT || is_type(row)
}

/// Whether types of a kind can differ in this way.
fn can_slip(row: usize, slip: usize) -> bool {
    match slip {
        NUMBER => matches!(row, 0..=3 | 6 | 16),
        KIND => is_type(row),
        LEVEL | PART => matches!(row, 4..=15),
        _ => matches!(row, 8 | 9),
    }
}

/// Which rows stand where in a trait field's expression.
fn occurring(wanted: &Wanted) -> [[bool; 3]; ROWS.len()] {
    let mut rows = [[false; 3]; ROWS.len()];
    occur(wanted, wanted.expression, WHOLE, false, &mut rows);
    rows
}

/// Of a generic's argument only names count: types there are compared with
/// nothing.
fn occur(
    wanted: &Wanted,
    expression: &TypeExpr,
    place: usize,
    in_generic: bool,
    rows: &mut [[bool; 3]; ROWS.len()],
) {
    let row = row_of(wanted, expression);
    if !in_generic || !is_type(row) || row == 3 {
        rows[row][place] = true;
    }
    if let (TypeExpr::Named(name), false) = (expression, in_generic) {
        if let Some(argument) = wanted.scope.argument(name) {
            each_node(argument, &mut |ty| rows[type_kind(ty)][ARGUMENT] = true);
        }
    }
    let in_generic = in_generic || matches!(expression, TypeExpr::Generic(..));
    for part in expression_parts(expression) {
        occur(wanted, part, INSIDE, in_generic, rows);
    }
}

fn row_of(wanted: &Wanted, expression: &TypeExpr) -> usize {
    let looked_up = match expression {
        TypeExpr::Named(name) if wanted.scope.argument(name).is_some() => return PARAMETER,
        TypeExpr::Named(_) | TypeExpr::Qualified(..) | TypeExpr::Generic(..) => {
            wanted.scope.meaning(expression)
        }
        _ => return expression_kind(expression),
    };
    match looked_up {
        ResolvedType::Named(POISON_TYPE_ID) => NOTHING,
        _ => expression_kind(expression),
    }
}

/// The row and way in which two types differ, if in one place only, and the
/// rows around that place.
fn slips(wanted: &ResolvedType, given: &ResolvedType) -> Option<Vec<(usize, usize)>> {
    let (kind, other) = (type_kind(wanted), type_kind(given));
    let (parts, others) = (type_parts(wanted), type_parts(given));
    if kind != other {
        return match () {
            _ if parts.contains(&given) => Some(vec![(kind, LEVEL)]),
            _ if others.contains(&wanted) => Some(vec![(other, LEVEL)]),
            _ if parts == others => Some(vec![(kind, KIND)]),
            _ => None,
        };
    }
    if parts == others {
        return one_number(wanted, given).then(|| vec![(kind, NUMBER)]);
    }
    if numbers_differ(wanted, given) {
        return None;
    }
    let pairs = parts.into_iter().zip(others).enumerate();
    let mut differing = pairs.filter(|(_, (part, other))| part != other);
    let (position, (part, other)) = differing.next()?;
    if differing.next().is_some() {
        return None;
    }
    let mut inner = slips(part, other)?;
    inner.push((kind, PART + position));
    Some(inner)
}

/// Of two types of one kind that has parts.
fn numbers_differ(wanted: &ResolvedType, given: &ResolvedType) -> bool {
    match (wanted, given) {
        (ResolvedType::FixedArray(_, size), ResolvedType::FixedArray(_, other)) => size != other,
        _ => false,
    }
}

/// Whether types of one kind, with equal parts, differ in one number.
fn one_number(wanted: &ResolvedType, given: &ResolvedType) -> bool {
    match (wanted, given) {
        (ResolvedType::SubByte(one), ResolvedType::SubByte(other)) => {
            (one.signed == other.signed) != (one.bits == other.bits)
        }
        (ResolvedType::BitsInline(names), ResolvedType::BitsInline(others)) => {
            one_name(names, others)
        }
        _ => wanted != given,
    }
}

/// One name replaced, or one more or less.
fn one_name<T: PartialEq>(names: &[T], others: &[T]) -> bool {
    let same = |(name, other): &(&T, &T)| name == other;
    let before = names.iter().zip(others).take_while(same).count();
    match (&names[before..], &others[before..]) {
        ([_, names @ ..], [_, others @ ..]) if names == others => true,
        (names, others) => names.get(1..) == Some(others) || others.get(1..) == Some(names),
    }
}

impl fmt::Display for FieldCounts {
    fn fmt(&self, out: &mut fmt::Formatter<'_>) -> fmt::Result {
        writeln!(
            out,
            "{:15}{:>27}{:>27}{:>45}",
            "trait fields", "found", "a field of the name missed", "missed in one place only"
        )?;
        write!(out, "{:15}", "kind")?;
        for told in PLACES.iter().chain(&PLACES).chain(&SLIPS) {
            write!(out, "{told:>9}")?;
        }
        writeln!(out)?;
        for (row, name) in ROWS.iter().enumerate() {
            write!(out, "{name:15}")?;
            for table in [&self.found, &self.missed] {
                for (place, count) in table[row].iter().enumerate() {
                    cell(out, *count, can_stand(row, place))?;
                }
            }
            for (slip, count) in self.slips[row].iter().enumerate() {
                cell(out, *count, can_slip(row, slip))?;
            }
            writeln!(out)?;
        }
        writeln!(
            out,
            "trait fields not found whose type is there under another name: {}",
            self.misnamed
        )
    }
}

/// A count, or a dash where there can be none.
fn cell(out: &mut fmt::Formatter<'_>, count: u64, possible: bool) -> fmt::Result {
    match possible {
        true => write!(out, "{count:>9}"),
        false => write!(out, "{:>9}", "-"),
    }
}
