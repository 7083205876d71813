//! Numbers of an image, with refusals 2 to 5.

use super::{name_text, refuse, Refusal};
use crate::format::{read_number, Edition, Fault, COUNT_LIMIT, LEVEL_LIMIT, U32_LIMIT};
use crate::smol_str::SmolStr;
use crate::span::Span;

pub type Read<T> = Result<T, Refusal>;

/// The image and how far it is read.
pub struct Reader<'a> {
    image: &'a [u8],
    pub edition: Edition,
    at: usize,
    /// The text of each name.
    names: Vec<SmolStr>,
}

impl<'a> Reader<'a> {
    pub fn new(image: &'a [u8], edition: Edition) -> Self {
        Self {
            image,
            edition,
            at: 0,
            names: Vec::new(),
        }
    }

    pub fn offset(&self) -> usize {
        self.at
    }

    /// Adds the next name; every name read later is one of those added.
    pub fn add_name(&mut self) {
        let text = name_text(self.names.len() as u64);
        self.names.push(text);
    }

    /// The text of a name below the count.
    pub fn name_text(&self, name: usize) -> &SmolStr {
        &self.names[name]
    }

    /// A number in shortest form, whatever its range, and its first byte.
    fn any_number(&mut self) -> Read<(u64, u64)> {
        let place = self.at as u64;
        match read_number(self.image, self.at) {
            Ok((value, after)) => {
                self.at = after;
                Ok((value, place))
            }
            Err(Fault::Missing) => refuse(2, place),
            Err(Fault::Malformed) => refuse(3, place),
        }
    }

    pub fn number(&mut self, limit: u64) -> Read<u64> {
        match self.any_number()? {
            (value, _) if value <= limit => Ok(value),
            (_, place) => refuse(4, place),
        }
    }

    /// A kind or encoding that stands at `level`; its range is tested first.
    pub fn kind(&mut self, limit: u64, level: u32) -> Read<u64> {
        let place = self.at as u64;
        let kind = self.number(limit)?;
        if level > LEVEL_LIMIT {
            return refuse(5, place);
        }
        Ok(kind)
    }

    pub fn name(&mut self) -> Read<SmolStr> {
        let (value, place) = self.any_number()?;
        match self.names.get(value as usize) {
            Some(text) => Ok(text.clone()),
            None => refuse(4, place),
        }
    }

    pub fn names(&mut self) -> Read<Vec<SmolStr>> {
        self.list(|reader, _| reader.name())
    }

    pub fn id(&mut self) -> Read<u32> {
        self.number(U32_LIMIT).map(|id| id as u32)
    }

    pub fn flag(&mut self) -> Read<bool> {
        self.number(1).map(|flag| flag == 1)
    }

    pub fn span(&mut self) -> Read<Span> {
        let offset = self.id()?;
        let len = self.id()?;
        Ok(Span { offset, len })
    }

    /// A count, then that many items, each told its position.
    pub fn list<T>(&mut self, item: impl FnMut(&mut Self, u32) -> Read<T>) -> Read<Vec<T>> {
        let count = self.count()?;
        self.items(count, item)
    }

    pub fn count(&mut self) -> Read<usize> {
        self.number(COUNT_LIMIT).map(|count| count as usize)
    }

    pub fn items<T>(
        &mut self,
        count: usize,
        mut item: impl FnMut(&mut Self, u32) -> Read<T>,
    ) -> Read<Vec<T>> {
        // An item has a byte at least, so a false count claims no more room.
        let mut items = Vec::with_capacity(count.min(self.image.len() - self.at));
        for position in 0..count {
            items.push(item(self, position as u32)?);
        }
        Ok(items)
    }
}
