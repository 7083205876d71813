//! From an image to the compiler's schema, or the refusal (1 to 9).

mod loops;
mod reader;
mod slots;
mod types;

use std::collections::HashMap;

use crate::format::{Edition, DECLARATION_LIMIT, IMAGE_LIMIT, NAME_LIMIT, SLOT_LIMIT, U32_LIMIT};
use crate::ir::{CompiledSchema, ResolvedAnnotations, TypeId, TypeRegistry};
use crate::smol_str::SmolStr;
use reader::{Read, Reader};

/// One of the numbers of document 01, and its place.
#[derive(Debug, Clone, Copy, PartialEq, Eq)]
pub struct Refusal {
    pub number: u64,
    pub place: u64,
    /// Which number of edition two it is about, if one; no part of the answer.
    pub added: Option<Added>,
}

/// A number that edition two alone has.
#[derive(Debug, Clone, Copy, PartialEq, Eq)]
pub enum Added {
    Limit,
    RetiredCount,
    /// One of so many.
    Retired {
        count: usize,
    },
}

impl Added {
    /// Tells a refusal what it is about.
    fn refused(self) -> impl Fn(Refusal) -> Refusal {
        move |refusal| Refusal {
            added: Some(self),
            ..refusal
        }
    }
}

/// What an accepted image says.
#[derive(Debug)]
pub struct Imported {
    /// The schema; its `find_table` answers as the image says. Limits stand in
    /// the encodings of fields, retired ordinals and bits in the tombstones.
    pub schema: CompiledSchema,
    /// For each name, the slot that it finds.
    pub finds: Vec<Option<u32>>,
    /// For each slot, the offset of its kind.
    pub starts: Vec<u32>,
}

/// Reads an image; the lowest refusal wins.
pub fn import(image: &[u8], edition: Edition) -> Result<Imported, Refusal> {
    let imported = read(image, edition)?;
    check_names(&imported)?;
    if let Some(slot) = loops::newtype_on_loop(&imported.schema.registry) {
        return refuse(8, slot as u64);
    }
    if let Some(slot) = loops::alias_on_loop(&imported.schema) {
        return refuse(9, slot as u64);
    }
    Ok(imported)
}

/// Reads an image up to its end, refusals 1 to 6.
pub fn read(image: &[u8], edition: Edition) -> Result<Imported, Refusal> {
    if image.len() > IMAGE_LIMIT {
        return refuse(1, 0);
    }
    read_whole(image, edition)
}

/// The text that stands for a name number. It has a dot in it, so that a
/// qualified name joins to the text of its own number.
pub fn name_text(number: u64) -> SmolStr {
    let mut text = *b"n.0000";
    write_digits(number, &mut text[2..]);
    SmolStr::new(std::str::from_utf8(&text).expect("digits are plain text"))
}

fn write_digits(mut number: u64, digits: &mut [u8]) {
    for digit in digits.iter_mut().rev() {
        *digit = b'0' + (number % 10) as u8;
        number /= 10;
    }
}

fn refuse<T>(number: u64, place: u64) -> Result<T, Refusal> {
    Err(Refusal {
        number,
        place,
        added: None,
    })
}

/// Refusals 2 to 6: names, slots, declarations, and nothing after them.
fn read_whole(image: &[u8], edition: Edition) -> Read<Imported> {
    let mut reader = Reader::new(image, edition);
    let finds = read_finds(&mut reader)?;
    let mut registry = TypeRegistry::new();
    let mut starts = Vec::new();
    for _ in 0..reader.number(SLOT_LIMIT)? {
        starts.push(reader.offset() as u32);
        reader.slot(&mut registry)?;
    }
    let mut declarations = Vec::new();
    for _ in 0..reader.number(DECLARATION_LIMIT)? {
        declarations.push(TypeId(reader.number(U32_LIMIT)? as u32));
    }
    if reader.offset() < image.len() {
        return refuse(6, reader.offset() as u64);
    }
    Ok(Imported {
        schema: schema(registry, declarations, find_table(&reader, &finds)),
        finds,
        starts,
    })
}

fn read_finds(reader: &mut Reader<'_>) -> Read<Vec<Option<u32>>> {
    let mut finds = Vec::new();
    for _ in 0..reader.number(NAME_LIMIT)? {
        let found = reader.number(SLOT_LIMIT)?;
        reader.add_name();
        finds.push(found.checked_sub(1).map(|slot| slot as u32));
    }
    Ok(finds)
}

fn find_table(reader: &Reader<'_>, finds: &[Option<u32>]) -> HashMap<SmolStr, TypeId> {
    let found = |(name, slot): (usize, &Option<u32>)| {
        slot.map(|slot| (reader.name_text(name).clone(), TypeId(slot)))
    };
    finds.iter().enumerate().filter_map(found).collect()
}

fn schema(
    registry: TypeRegistry,
    declarations: Vec<TypeId>,
    find_table: HashMap<SmolStr, TypeId>,
) -> CompiledSchema {
    CompiledSchema {
        namespace: Vec::new(),
        annotations: ResolvedAnnotations::default(),
        registry,
        declarations,
        constants: HashMap::new(),
        find_table: Some(find_table),
    }
}

/// Refusal 7: a name's slot is empty or beyond the slots.
fn check_names(imported: &Imported) -> Result<(), Refusal> {
    for (name, slot) in imported.finds.iter().enumerate() {
        if let Some(slot) = slot {
            if imported.schema.registry.get(TypeId(*slot)).is_none() {
                return refuse(7, name as u64);
            }
        }
    }
    Ok(())
}
