//! The lowest slot on a loop, against following all ways from each slot.

use oracle::format::Edition;
use oracle::generate::loops::{alias_ring, aliases, newtype_order, newtype_ring, newtypes};
use oracle::import::import;
use oracle::model::{Schema, Slot, Tree, MAP, RESULT};
use oracle::random::Random;

fn refused(schema: &Schema) -> Option<(u64, u64)> {
    let refusal = import(&schema.bytes(Edition::One), Edition::One).err()?;
    Some((refusal.number, refusal.place))
}

/// The lowest number that reaches itself.
fn lowest(next: &[Vec<usize>]) -> Option<u64> {
    let reaches_itself = |&from: &usize| {
        let mut seen = vec![false; next.len()];
        let mut open = next[from].clone();
        while let Some(slot) = open.pop() {
            if !std::mem::replace(&mut seen[slot], true) {
                open.extend(&next[slot]);
            }
        }
        seen[from]
    };
    (0..next.len()).find(reaches_itself).map(|slot| slot as u64)
}

fn newtypes_in(tree: &Tree, schema: &Schema, found: &mut Vec<usize>) {
    match tree {
        Tree::Named(id) => {
            if let Some(Slot::Newtype { .. }) = schema.slots.get(*id as usize) {
                found.push(*id as usize);
            }
        }
        // Array and Set are not followed.
        Tree::Wrap(kind, part) if ![5, 7].contains(kind) => newtypes_in(part, schema, found),
        Tree::Fixed(part, _) => newtypes_in(part, schema, found),
        Tree::Pair(RESULT, ok, err) => {
            newtypes_in(ok, schema, found);
            newtypes_in(err, schema, found);
        }
        _ => {}
    }
}

fn aliases_in(tree: &Tree, schema: &Schema, found: &mut Vec<usize>) {
    match tree {
        Tree::Generic(name, argument) => {
            let find = schema.names[*name as usize] as usize;
            if find > 0 && matches!(schema.slots[find - 1], Slot::Alias { .. }) {
                found.push(find - 1);
            }
            aliases_in(argument, schema, found);
        }
        Tree::Wrap(_, part) | Tree::Fixed(part, _) => aliases_in(part, schema, found),
        Tree::Pair(MAP | RESULT, left, right) => {
            aliases_in(left, schema, found);
            aliases_in(right, schema, found);
        }
        _ => {}
    }
}

fn edges(schema: &Schema) -> [Vec<Vec<usize>>; 2] {
    let none = || vec![Vec::new(); schema.slots.len()];
    let (mut by_newtype, mut by_alias) = (none(), none());
    for (slot, body) in schema.slots.iter().enumerate() {
        match body {
            Slot::Newtype { terminal, .. } => {
                newtypes_in(terminal, schema, &mut by_newtype[slot]);
            }
            Slot::Alias { target, .. } => aliases_in(target, schema, &mut by_alias[slot]),
            _ => {}
        }
    }
    [by_newtype, by_alias]
}

fn expected(schema: &Schema) -> Option<(u64, u64)> {
    let [by_newtype, by_alias] = edges(schema);
    let newtype = lowest(&by_newtype).map(|slot| (8, slot));
    newtype.or(lowest(&by_alias).map(|slot| (9, slot)))
}

#[test]
fn random_graphs() {
    let mut random = Random::new(8, 9);
    for _ in 0..3_000 {
        for schema in [newtypes(&mut random), aliases(&mut random)] {
            assert_eq!(refused(&schema), expected(&schema), "{schema:?}");
        }
    }
}

#[test]
fn rings_and_orders() {
    assert_eq!(refused(&newtype_ring(512)), Some((8, 0)));
    assert_eq!(refused(&newtype_ring(1)), Some((8, 0)));
    assert_eq!(refused(&alias_ring(512)), Some((9, 0)));
    assert_eq!(refused(&newtype_order(512, 29)), None);
}
