//! Wrong comparisons of types, and wrong meanings of expressions: the images
//! compared tell each from the right one.

use std::fmt;
use std::ops::ControlFlow;

use oracle::answer::{each_wanted, type_kind, type_parts, Wanted, Whole};
use oracle::ast::TypeExpr;
use oracle::compare::{compare, each_image, Selection};
use oracle::format::{Edition, Entry};
use oracle::generate::Families;
use oracle::import::import;
use oracle::ir::{CompiledSchema, GenericAliasDef, ResolvedType, TraitDef, TypeDef};
use oracle::library::{Call, Library, Verdict, REFERENCE};
use oracle::record::record_lines;
use oracle::workers::{on_long_stack, THREADS};
use oracle::SmolStr;

const SELECTION: Selection = Selection {
    count: 4_000,
    seed: 11,
    families: Families::All,
    entry: Entry::ONE,
};

/// A wrong rule for types that are held against each other. Numbers are kinds.
#[derive(Debug, Clone, Copy, PartialEq)]
enum Wrong {
    /// Answers false for types of this kind.
    Never(usize),
    /// Answers false where this kind stands inside.
    NeverInside(usize),
    /// Takes no notice of this kind's numbers, or of the first or second.
    Numbers(usize),
    Sign,
    Bits,
    /// Takes this kind for another with the same parts.
    Kind(usize),
    /// Takes this kind for its part.
    Level(usize),
    /// Takes no notice of a part of this kind.
    Part(usize, usize),
    /// Takes inline bits for equal if the shorter begins the longer.
    Prefix,
    /// Takes no notice of the field's name.
    Name,
}

fn all_wrong() -> Vec<Wrong> {
    let mut all = vec![Wrong::Sign, Wrong::Bits, Wrong::Prefix, Wrong::Name];
    for kind in 0..=16 {
        all.extend([
            Wrong::Never(kind),
            Wrong::NeverInside(kind),
            Wrong::Kind(kind),
        ]);
    }
    all.extend([0, 1, 2, 3, 6, 16].map(Wrong::Numbers));
    for kind in 4..=15 {
        all.extend([Wrong::Level(kind), Wrong::Part(kind, 0)]);
    }
    all.extend([Wrong::Part(8, 1), Wrong::Part(9, 1)]);
    all
}

fn numbers_alike(wanted: &ResolvedType, given: &ResolvedType, wrong: Wrong) -> bool {
    match (wanted, given) {
        _ if wrong == Wrong::Numbers(type_kind(wanted)) => true,
        (ResolvedType::FixedArray(_, size), ResolvedType::FixedArray(_, other)) => size == other,
        (ResolvedType::SubByte(one), ResolvedType::SubByte(other)) => {
            (one.signed == other.signed || wrong == Wrong::Sign)
                && (one.bits == other.bits || wrong == Wrong::Bits)
        }
        (ResolvedType::BitsInline(names), ResolvedType::BitsInline(others)) => match wrong {
            Wrong::Prefix => names.iter().zip(others).all(|(name, other)| name == other),
            _ => names == others,
        },
        _ => !type_parts(wanted).is_empty() || wanted == given,
    }
}

/// Equal, but for what the wrong rule overlooks.
fn alike(wanted: &ResolvedType, given: &ResolvedType, wrong: Wrong) -> bool {
    let (kind, other) = (type_kind(wanted), type_kind(given));
    let (parts, others) = (type_parts(wanted), type_parts(given));
    let all_alike = || {
        let mut pairs = parts.iter().zip(&others).enumerate();
        let alike = |(place, (part, other)): (usize, (&&ResolvedType, &&ResolvedType))| {
            wrong == Wrong::Part(kind, place) || alike(part, other, wrong)
        };
        parts.len() == others.len() && pairs.all(alike)
    };
    if kind == other {
        return numbers_alike(wanted, given, wrong) && all_alike();
    }
    match wrong {
        Wrong::Kind(overlooked) if kind == overlooked || other == overlooked => all_alike(),
        Wrong::Level(overlooked) => {
            let inside = kind == overlooked && parts.iter().any(|part| alike(part, given, wrong));
            let around = || others.iter().any(|other| alike(wanted, other, wrong));
            inside || other == overlooked && around()
        }
        _ => false,
    }
}

fn holds(ty: &ResolvedType, kind: usize) -> bool {
    type_kind(ty) == kind || type_parts(ty).iter().any(|part| holds(part, kind))
}

fn found(wanted: &Wanted, wrong: Wrong) -> bool {
    let meaning = &wanted.meaning;
    match wrong {
        Wrong::Never(kind) => wanted.found() && type_kind(meaning) != kind,
        Wrong::NeverInside(kind) => {
            let mut parts = type_parts(meaning).into_iter();
            wanted.found() && !parts.any(|part| holds(part, kind))
        }
        Wrong::Name => wanted.found() || wanted.misnamed(),
        wrong => wanted
            .named_alike()
            .any(|given| alike(meaning, given, wrong)),
    }
}

/// Slot and index of the trait fields that are not found.
fn lacking(schema: &CompiledSchema, found: &dyn Fn(&Wanted) -> bool) -> Vec<[u32; 2]> {
    let mut lacking = Vec::new();
    each_wanted(schema, &mut |wanted| {
        if !found(wanted) {
            lacking.push([wanted.slot, wanted.index]);
        }
    });
    lacking
}

/// Calls `visit` with the schemas of the selection whose findings are known.
fn each_schema(visit: &mut (dyn FnMut(&CompiledSchema) + Send)) {
    let mut one = |_, image: &[u8]| {
        if Whole::of(image, Edition::One).finding_places().is_some() {
            visit(
                &import(image, Edition::One)
                    .expect("an accepted image")
                    .schema,
            );
        }
        ControlFlow::Continue(())
    };
    on_long_stack(|| (0..THREADS).for_each(|worker| each_image(SELECTION, worker, &mut one)));
}

/// Fails if a rule changes the findings of few images.
fn assert_shown<T: fmt::Debug>(shown: &[(T, usize)], least: usize) {
    for (rule, images) in shown {
        assert!(*images >= least, "{rule:?} shows on {images} images");
    }
}

#[test]
fn every_wrong_comparison_shows() {
    let mut shown: Vec<(Wrong, usize)> = all_wrong().into_iter().map(|rule| (rule, 0)).collect();
    each_schema(&mut |schema| {
        let right = lacking(schema, &|wanted| wanted.found());
        for (wrong, images) in &mut shown {
            let answered = lacking(schema, &|wanted| found(wanted, *wrong));
            *images += usize::from(answered != right);
        }
    });
    assert_shown(&shown, 5);
}

/// The images of the texts that `crates/replay` has recorded.
fn recorded_images() -> Vec<Vec<u8>> {
    let selection = Selection {
        count: 1_500,
        seed: 7,
        families: Families::All,
        entry: Entry::ONE,
    };
    let mut file = Vec::new();
    record_lines(selection, &mut file).expect("a Vec takes all");
    let mut parts = Vec::new();
    let mut rest = &file[..];
    while let Some((length, after)) = rest.split_first_chunk::<4>() {
        let (part, after) = after.split_at(u32::from_le_bytes(*length) as usize);
        parts.push(part.to_vec());
        rest = after;
    }
    parts.into_iter().step_by(2).collect()
}

#[test]
fn every_wrong_comparison_shows_in_recorded_texts() {
    let mut shown: Vec<(Wrong, usize)> = all_wrong().into_iter().map(|rule| (rule, 0)).collect();
    for image in recorded_images() {
        let Ok(imported) = import(&image, Edition::One) else {
            continue;
        };
        let right = lacking(&imported.schema, &|wanted| wanted.found());
        for (wrong, images) in &mut shown {
            let answered = lacking(&imported.schema, &|wanted| found(wanted, *wrong));
            *images += usize::from(answered != right);
        }
    }
    assert_shown(&shown, 1);
}

/// A wrong meaning, by what is done to the expressions of traits and aliases.
#[derive(Debug, Clone, Copy)]
enum Misread {
    /// A parameter is looked up like any other name.
    ParameterAsName,
    /// A parameter is its last position.
    LastPosition,
    /// A qualified name may be a parameter.
    QualifiedAsName,
    /// A name is never a parameter's, nor found.
    NameUnfound,
    QualifiedUnfound,
    GenericUnfound,
    /// A generic is its argument.
    GenericAsArgument,
    /// A generic is the alias itself.
    GenericAsAlias,
    /// The one argument of a generic is that of all the alias's parameters.
    EveryParameter,
}

const MISREAD: [Misread; 9] = [
    Misread::ParameterAsName,
    Misread::LastPosition,
    Misread::QualifiedAsName,
    Misread::NameUnfound,
    Misread::QualifiedUnfound,
    Misread::GenericUnfound,
    Misread::GenericAsArgument,
    Misread::GenericAsAlias,
    Misread::EveryParameter,
];

/// A name that no image has.
fn nowhere() -> SmolStr {
    SmolStr::new("nowhere")
}

fn misread(expression: &mut TypeExpr, misread_as: Misread) {
    let read = match (misread_as, &*expression) {
        (Misread::QualifiedAsName, TypeExpr::Qualified(space, name)) => {
            TypeExpr::Named(format!("{space}.{name}").into())
        }
        (Misread::NameUnfound, TypeExpr::Named(_))
        | (Misread::QualifiedUnfound, TypeExpr::Qualified(..))
        | (Misread::GenericUnfound, TypeExpr::Generic(..)) => TypeExpr::Named(nowhere()),
        (Misread::GenericAsArgument, TypeExpr::Generic(_, argument)) => argument.node.clone(),
        (Misread::GenericAsAlias, TypeExpr::Generic(name, _)) => TypeExpr::Named(name.clone()),
        _ => return misread_parts(expression, misread_as),
    };
    *expression = read;
}

fn misread_parts(expression: &mut TypeExpr, misread_as: Misread) {
    match expression {
        TypeExpr::Optional(part)
        | TypeExpr::Array(part)
        | TypeExpr::FixedArray(part, _)
        | TypeExpr::Set(part)
        | TypeExpr::Vec2(part)
        | TypeExpr::Vec3(part)
        | TypeExpr::Vec4(part)
        | TypeExpr::Quat(part)
        | TypeExpr::Mat3(part)
        | TypeExpr::Mat4(part)
        | TypeExpr::Generic(_, part) => misread(&mut part.node, misread_as),
        TypeExpr::Map(left, right) | TypeExpr::Result(left, right) => {
            misread(&mut left.node, misread_as);
            misread(&mut right.node, misread_as);
        }
        _ => {}
    }
}

fn misread_schema(schema: &CompiledSchema, misread_as: Misread) -> CompiledSchema {
    let mut schema = schema.clone();
    let ids: Vec<_> = schema.registry.iter().map(|(id, _)| id).collect();
    for id in ids {
        match schema.registry.get_mut(id) {
            Some(TypeDef::Trait(definition)) => misread_trait(definition, misread_as),
            Some(TypeDef::GenericAlias(alias)) => misread_alias(alias, misread_as),
            _ => {}
        }
    }
    schema
}

fn misread_alias(alias: &mut GenericAliasDef, misread_as: Misread) {
    if let (Misread::EveryParameter, TypeExpr::Named(name)) = (misread_as, &alias.target_type) {
        if alias.type_params.contains(name) {
            alias.target_type = TypeExpr::Named(alias.type_params[0].clone());
        }
    }
}

fn misread_trait(definition: &mut TraitDef, misread_as: Misread) {
    for field in &mut definition.fields {
        misread(&mut field.unresolved_ty, misread_as);
    }
    let mut later: Vec<SmolStr> = Vec::new();
    for parameter in definition.type_params.iter_mut().rev() {
        let name = parameter.name.node.clone();
        let overlooked = match misread_as {
            Misread::ParameterAsName => true,
            Misread::LastPosition => later.contains(&name),
            _ => false,
        };
        if overlooked {
            parameter.name.node = nowhere();
        }
        later.push(name);
    }
}

#[test]
fn every_misread_expression_shows() {
    let mut shown: Vec<(Misread, usize)> = MISREAD.map(|rule| (rule, 0)).into();
    each_schema(&mut |schema| {
        let right = lacking(schema, &|wanted| wanted.found());
        for (wrong, images) in &mut shown {
            let answered = lacking(&misread_schema(schema, *wrong), &|wanted| wanted.found());
            *images += usize::from(answered != right);
        }
    });
    assert_shown(&shown, 5);
}

/// The findings of a check that never finds a trait field of one kind.
fn blind_findings(image: &[u8], kind: usize, right: &[u32]) -> Vec<u32> {
    let schema = import(image, Edition::One)
        .expect("an accepted image")
        .schema;
    let rows = right.chunks(6).map(<[u32; 6]>::try_from);
    let rows = rows.map(|row| row.expect("six numbers a finding"));
    let mut rows: Vec<[u32; 6]> = rows.filter(|row| row[0] != 4).collect();
    for [slot, index] in lacking(&schema, &|wanted| found(wanted, Wrong::Never(kind))) {
        let (_, body) = schema
            .impls()
            .find(|(id, _)| id.index() == slot)
            .expect("an impl");
        rows.push([4, slot, body.span.offset, body.span.len, index, 0]);
    }
    // Class 1 comes first, then the impls in order, each with one class.
    rows.sort_by_key(|row| (row[0] != 1, if row[0] == 1 { 0 } else { row[1] }));
    rows.concat()
}

/// The whole check of a library that never finds a trait field of one kind.
fn blind<const KIND: usize>(image: &[u8], sizes: &mut [u64], findings: &mut [u32]) -> Verdict {
    let check = REFERENCE.check.expect("the reference has all");
    let verdict = check(image, sizes, findings);
    if verdict.number != 0 {
        return verdict;
    }
    let wrong = blind_findings(image, KIND, &findings[..6 * verdict.value as usize]);
    if wrong.len() > findings.len() {
        sizes.fill(0);
        findings.fill(0);
        return Verdict {
            number: 12,
            value: 0,
        };
    }
    findings[..wrong.len()].copy_from_slice(&wrong);
    Verdict {
        number: 0,
        value: wrong.len() as u64 / 6,
    }
}

const fn blind_to<const KIND: usize>() -> Library {
    Library {
        check: Some(blind::<KIND>),
        ..REFERENCE
    }
}

const BLIND: [Library; 18] = [
    blind_to::<0>(),
    blind_to::<1>(),
    blind_to::<2>(),
    blind_to::<3>(),
    blind_to::<4>(),
    blind_to::<5>(),
    blind_to::<6>(),
    blind_to::<7>(),
    blind_to::<8>(),
    blind_to::<9>(),
    blind_to::<10>(),
    blind_to::<11>(),
    blind_to::<12>(),
    blind_to::<13>(),
    blind_to::<14>(),
    blind_to::<15>(),
    blind_to::<16>(),
    // There is no such kind, so this one is right.
    blind_to::<17>(),
];

/// The comparer tells each such library.
#[test]
fn library_blind_to_a_kind_is_told() {
    for (kind, library) in BLIND.into_iter().enumerate() {
        let selection = Selection {
            count: 1_000,
            ..SELECTION
        };
        let outcome = compare(selection, library);
        assert_eq!(outcome.passed(), kind == 17, "kind {kind}");
        if let Some(difference) = outcome.difference {
            assert_eq!(difference.expected.verdict.number, 0, "kind {kind}");
            assert!(matches!(difference.call, Call::Check { .. }), "kind {kind}");
        }
    }
}
