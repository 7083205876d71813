//! Trait fields of every kind that a message has exactly, or all but: one
//! number off, one side, one level, the kind, the name.

use super::near::{Near, NOWHERE};
use super::schemas::{declarations, span, with_encoding};
use crate::model::{
    field, fixed, generic, message, pair, wrap, Field, Impl, Ordinals, Schema, Slot, Tree, MAP,
    OPTIONAL, RESULT, U8,
};
use crate::random::Random;

/// Names after those that only push the others up: of fields, of parameters,
/// of slots, one found nowhere, of aliases.
const FIELDS: u64 = 0;
const PARAMETERS: u64 = 4;
const PLAIN: u64 = 7;
const ALIASES: u64 = 10;
const NAMES: u64 = 13;

/// Slots after those that only push the others up.
const TARGET: u64 = 0;
const SECOND: u64 = 1;
const TRAIT: u64 = 2;
const OTHER: u64 = 3;
const FIRST_ALIAS: u64 = 4;

/// A trait over types of every kind, and impls for a message that is made to
/// have about half of its fields, and for a second one that is off here and
/// there.
pub fn matches(random: &mut Random) -> Schema {
    let mut world = World::new(random);
    let wanted: Vec<(u64, Tree)> = (0..4 + random.below(8))
        .map(|_| (world.name(random, FIELDS, 4), world.wanted(random)))
        .collect();
    let target = world.message_for(random, &wanted);
    let second = target.iter().map(|field| match random.once_in(3) {
        true => Field {
            tree: world.near.near(random, &field.tree),
            ..field.clone()
        },
        false => field.clone(),
    });
    let second: Vec<Field> = second.collect();
    world.slots.push(message(0, target));
    world.slots.push(message(1, second));
    world.slots.push(Slot::Trait {
        parameters: world.parameters.clone(),
        fields: wanted,
    });
    world.slots.push(random.pick(&[Slot::Config, U8_ENUM]));
    for (parameters, target) in world.aliases.clone() {
        world.slots.push(Slot::Alias { parameters, target });
    }
    for _ in 0..1 + random.below(3) {
        let body = world.implementing(random);
        world.slots.push(Slot::Impl(body));
    }
    world.schema(random)
}

const U8_ENUM: Slot = Slot::Enum {
    backing: 1,
    non_exhaustive: 0,
    bits: 8,
    ordinals: Ordinals {
        live: vec![],
        retired: vec![],
    },
};

/// None, or so many that numbers take one byte or two.
fn pushed_up(random: &mut Random) -> u64 {
    match random.below(3) {
        0 => 120 + random.below(10),
        _ => 0,
    }
}

/// What expressions are made of and mean. A slip here would only make matches
/// rare: what an image has to be answered is worked out elsewhere.
struct World {
    finds: Vec<u64>,
    /// Slots before the target, then all of them.
    pushed: u64,
    slots: Vec<Slot>,
    /// Names before those of the fields.
    first: u64,
    parameters: Vec<u64>,
    arguments: Vec<Tree>,
    aliases: Vec<(Vec<u64>, Tree)>,
    /// Arrays are small where messages are declared: sizes keep to the limit.
    near: Near,
}

impl World {
    fn new(random: &mut Random) -> Self {
        let first = pushed_up(random);
        let pushed = pushed_up(random);
        let ids = [TARGET, SECOND, OTHER].map(|slot| pushed + slot);
        let mut world = World {
            finds: vec![0; (first + NAMES) as usize],
            pushed,
            slots: vec![Slot::Config; pushed as usize],
            first,
            parameters: Vec::new(),
            arguments: Vec::new(),
            aliases: Vec::new(),
            near: Near {
                ids: [&ids[..], &ids[..], &[NOWHERE, 300, 70_000, 1 << 31]].concat(),
                names: first + NAMES,
                small: random.once_in(3),
            },
        };
        world.find(PLAIN, TARGET);
        world.find(PLAIN + 1, random.pick(&[OTHER, SECOND]));
        for alias in 0..3 {
            world.find(ALIASES + alias, FIRST_ALIAS + alias);
        }
        // A parameter's name may find a slot all the same.
        let slot = random.pick(&[TARGET, OTHER, FIRST_ALIAS]);
        world.find(PARAMETERS + random.below(3), slot);
        // The same parameter twice included.
        let count = random.pick(&[1, 2, 2, 3, 3, 3]);
        world.parameters = (0..count)
            .map(|_| world.name(random, PARAMETERS, 3))
            .collect();
        world.arguments = (0..count).map(|_| world.type_tree(random, 2)).collect();
        for below in 0..3 {
            let alias = world.alias(random, below);
            world.aliases.push(alias);
        }
        world
    }

    fn find(&mut self, name: u64, slot: u64) {
        self.finds[(self.first + name) as usize] = self.pushed + slot + 1;
    }

    /// One of `count` names.
    fn name(&self, random: &mut Random, from: u64, count: u64) -> u64 {
        self.first + from + random.below(count)
    }

    /// What a name means that is no parameter.
    fn found(&self, name: u64) -> Tree {
        let find = self.finds[name as usize];
        Tree::Named(find.checked_sub(1).unwrap_or(NOWHERE))
    }

    /// What an expression means, the parameters being these.
    fn meaning(&self, tree: &Tree, parameters: &[u64], arguments: &[Tree]) -> Tree {
        let part = |tree: &Tree| self.meaning(tree, parameters, arguments);
        match tree {
            Tree::Named(name) => {
                let mut known = parameters.iter().zip(arguments);
                let known = known.find(|(parameter, _)| *parameter == name);
                known.map_or_else(|| self.found(*name), |(_, argument)| argument.clone())
            }
            Tree::Qualified(name) => self.found(*name),
            Tree::Generic(name, argument) => {
                let find = self.finds[*name as usize];
                let alias = find.checked_sub(self.pushed + FIRST_ALIAS + 1);
                let alias = alias.and_then(|alias| self.aliases.get(alias as usize));
                let argument = [part(argument)];
                let target =
                    alias.map(|(parameters, target)| self.meaning(target, parameters, &argument));
                match target {
                    Some(Tree::Named(id)) => Tree::Named(id),
                    _ => Tree::Named(NOWHERE),
                }
            }
            Tree::Wrap(kind, inner) => wrap(*kind, part(inner)),
            Tree::Fixed(inner, size) => fixed(part(inner), *size),
            Tree::Pair(kind, left, right) => pair(*kind, part(left), part(right)),
            leaf => leaf.clone(),
        }
    }

    /// An alias over the first `below` ones, its parameters named like those of
    /// the trait.
    fn alias(&self, random: &mut Random, below: u64) -> (Vec<u64>, Tree) {
        let parameters: Vec<u64> = (0..random.pick(&[0, 1, 1, 1, 2, 2]))
            .map(|_| self.name(random, PARAMETERS, 3))
            .collect();
        // Only the first parameter has an argument.
        let name = match random.below(4) {
            0 => self.name(random, PARAMETERS, 6),
            1 => parameters.last().copied().unwrap_or(self.first),
            _ => parameters.first().copied().unwrap_or(self.first),
        };
        let target = match random.below(9) {
            0 => wrap(OPTIONAL, Tree::Named(name)),
            1 => U8,
            2 => Tree::Qualified(name),
            3 | 4 if below > 0 => generic(
                self.first + ALIASES + random.below(below),
                Tree::Named(name),
            ),
            _ => Tree::Named(name),
        };
        (parameters, target)
    }

    /// An expression of any kind, now and then many levels deep.
    fn wanted(&self, random: &mut Random) -> Tree {
        let mut tree = self.expression(random, 3);
        if random.once_in(20) {
            for _ in 0..random.below(20) {
                tree = self.near.around(random, tree);
            }
        }
        tree
    }

    /// Each kind as often as the others, parameters and generics more often.
    fn expression(&self, random: &mut Random, levels: u32) -> Tree {
        match random.below(24) {
            17 => Tree::Qualified(self.name(random, PARAMETERS, 6)),
            18..=20 => {
                let argument = match levels {
                    _ if random.once_in(3) => Tree::Named(self.name(random, PARAMETERS, 6)),
                    0 => Tree::Named(self.name(random, PLAIN, 3)),
                    _ => self.expression(random, levels - 1),
                };
                generic(self.generic_name(random), argument)
            }
            21.. => Tree::Named(random.pick(&self.parameters)),
            kind => self.of_kind(random, kind, &|world, random| match levels {
                0 => Tree::Named(world.name(random, PARAMETERS, 6)),
                _ => world.expression(random, levels - 1),
            }),
        }
    }

    /// Mostly an alias; else a name that finds another slot or none, or that is
    /// a parameter's.
    fn generic_name(&self, random: &mut Random) -> u64 {
        match random.below(6) {
            0 => self.name(random, PARAMETERS, NAMES - PARAMETERS),
            _ => self.name(random, ALIASES, 3),
        }
    }

    /// A type of any kind.
    fn type_tree(&self, random: &mut Random, levels: u32) -> Tree {
        let kind = random.below(17);
        let tree = self.of_kind(random, kind, &|world, random| match levels {
            0 => U8,
            _ => world.type_tree(random, levels - 1),
        });
        match tree {
            Tree::Named(_) => Tree::Named(random.pick(&self.near.ids)),
            tree => tree,
        }
    }

    fn of_kind(
        &self,
        random: &mut Random,
        kind: u64,
        part: &dyn Fn(&Self, &mut Random) -> Tree,
    ) -> Tree {
        match kind {
            0 => Tree::Primitive(random.below(14)),
            1 => Tree::SubByte(random.below(2), random.below(256)),
            2 => Tree::Semantic(random.below(6)),
            6 => fixed(part(self, random), self.near.array_size(random)),
            MAP | RESULT => {
                let left = part(self, random);
                pair(kind, left, part(self, random))
            }
            3 => Tree::Named(self.name(random, PLAIN, 4)),
            16 => {
                let count = random.below(4);
                Tree::Bits((0..count).map(|_| random.below(self.near.names)).collect())
            }
            _ => wrap(kind, part(self, random)),
        }
    }

    /// For each field that is wanted its type and types that are nearly it.
    fn message_for(&self, random: &mut Random, wanted: &[(u64, Tree)]) -> Vec<Field> {
        let mut fields = Vec::new();
        for (name, tree) in wanted {
            let meaning = self.meaning(tree, &self.parameters, &self.arguments);
            let near = random.pick(&[0, 1, 1, 2, 3]);
            for _ in 0..near {
                let misread = self.misread(random, tree);
                let near = match misread != meaning && random.once_in(4) {
                    true => misread,
                    false => self.near.near(random, &meaning),
                };
                fields.push(field(*name, near));
            }
            match random.below(4) {
                0 => fields.push(field(random.below(self.near.names), meaning)),
                1 => {}
                _ => fields.push(field(*name, meaning)),
            }
        }
        random.shuffle(&mut fields);
        let encoded = fields.into_iter();
        encoded.map(|field| with_encoding(random, field)).collect()
    }

    /// What an expression would mean if its names were taken for parameters or
    /// not, and its generics for the alias or the argument.
    fn misread(&self, random: &mut Random, tree: &Tree) -> Tree {
        let tree = misread(random, tree);
        self.meaning(&tree, &self.parameters, &self.arguments)
    }

    /// Mostly the arguments that the first message was made for, at times with
    /// one of them a little off.
    fn implementing(&self, random: &mut Random) -> Impl {
        let mut arguments = self.arguments.clone();
        if random.once_in(3) {
            let one = random.below(arguments.len() as u64) as usize;
            arguments[one] = self.near.near(random, &arguments[one]);
        }
        Impl {
            span: span(random),
            trait_number: self.pushed + TRAIT + 1,
            trait_span: random.once_in(2).then(|| span(random)),
            arguments,
            target: Tree::Named(self.pushed + random.pick(&[TARGET, TARGET, SECOND])),
        }
    }

    fn schema(self, random: &mut Random) -> Schema {
        let slots = self.slots.len() as u64;
        Schema {
            names: self.finds,
            declarations: match self.near.small {
                true => declarations(random, slots),
                false => (self.pushed + TRAIT..slots).collect(),
            },
            slots: self.slots,
        }
    }
}

fn misread(random: &mut Random, tree: &Tree) -> Tree {
    match tree {
        Tree::Named(name) => Tree::Qualified(*name),
        Tree::Qualified(name) => Tree::Named(*name),
        Tree::Generic(name, argument) => match random.once_in(2) {
            true => Tree::Named(*name),
            false => *argument.clone(),
        },
        Tree::Wrap(kind, part) => wrap(*kind, misread(random, part)),
        Tree::Fixed(part, size) => fixed(misread(random, part), *size),
        Tree::Pair(kind, left, right) => {
            let left = misread(random, left);
            pair(*kind, left, misread(random, right))
        }
        leaf => leaf.clone(),
    }
}
