//! Edition-one images made of an edition-two image: the one that is left when
//! limits and retired ones are taken out, and the one in which retired ones have
//! moved to the end of the live ones. By the format alone, without the reader and
//! the writer that they are held against.

/// The image left of an accepted one.
pub fn taken_out(image: &[u8]) -> Vec<u8> {
    walked(image, false)
}

/// The image whose retired ones are live, of an accepted one. It is no longer: two
/// counts have no fewer bytes than their sum.
pub fn moved(image: &[u8]) -> Vec<u8> {
    walked(image, true)
}

fn walked(image: &[u8], moves: bool) -> Vec<u8> {
    let mut walk = Walk {
        rest: image,
        left: Vec::new(),
        moves,
    };
    walk.list(Walk::kept);
    walk.list(Walk::slot);
    walk.list(Walk::kept);
    assert!(walk.rest.is_empty(), "bytes after the last declaration");
    walk.left
}

struct Walk<'a> {
    rest: &'a [u8],
    left: Vec<u8>,
    /// Whether retired ones are moved; else they are taken out.
    moves: bool,
}

impl Walk<'_> {
    /// The bytes of the next number, which is passed.
    fn number(&mut self) -> &[u8] {
        let last = self.rest.iter().position(|&byte| byte < 0x80);
        let (number, rest) = self.rest.split_at(last.expect("a number") + 1);
        self.rest = rest;
        number
    }

    fn out(&mut self) -> u64 {
        value(self.number())
    }

    fn kept(&mut self) -> u64 {
        let number = self.number().to_vec();
        self.left.extend(&number);
        value(&number)
    }

    fn keep(&mut self, numbers: u64) {
        for _ in 0..numbers {
            self.kept();
        }
    }

    fn list<T>(&mut self, mut item: impl FnMut(&mut Self) -> T) {
        for _ in 0..self.kept() {
            item(self);
        }
    }

    fn slot(&mut self) {
        match self.kept() {
            0 | 6 => {}
            1 => {
                self.keep(2);
                self.stored();
                self.list(Self::field);
            }
            2 => {
                self.keep(3);
                self.ordinals();
            }
            3 => {
                self.keep(1);
                self.ordinals();
            }
            4 => {
                self.stored();
                self.list(|walk| walk.list(Self::field));
            }
            5 => {
                self.tree();
                self.tree();
            }
            7 => {
                self.list(Self::kept);
                self.tree();
            }
            8 => {
                self.list(Self::kept);
                self.list(|walk| {
                    walk.kept();
                    walk.tree();
                });
            }
            _ => self.impl_slot(),
        }
    }

    fn impl_slot(&mut self) {
        self.keep(3);
        if self.kept() == 1 {
            self.keep(2);
        }
        self.list(Self::tree);
        self.tree();
    }

    fn stored(&mut self) {
        let sizes = self.kept();
        self.keep(sizes.saturating_sub(u64::from(sizes > 1)));
    }

    fn field(&mut self) {
        self.kept();
        while self.kept() == 3 {}
        self.tree();
        self.out();
    }

    fn ordinals(&mut self) {
        let mut kept = self.items();
        let retired = self.items();
        if self.moves {
            kept.extend(retired);
        }
        self.left.extend(written(kept.len()));
        self.left.extend(kept.concat());
    }

    /// The numbers of a list, as they are written.
    fn items(&mut self) -> Vec<Vec<u8>> {
        let count = self.out();
        (0..count).map(|_| self.number().to_vec()).collect()
    }

    /// A type or an expression.
    fn tree(&mut self) {
        match self.kept() {
            0 | 2 | 3 | 17 => self.keep(1),
            1 => self.keep(2),
            6 => {
                self.tree();
                self.keep(1);
            }
            8 | 9 => {
                self.tree();
                self.tree();
            }
            16 => self.list(Self::kept),
            18 => {
                self.keep(1);
                self.tree();
            }
            _ => self.tree(),
        }
    }
}

fn value(number: &[u8]) -> u64 {
    let groups = number.iter().rev();
    groups.fold(0, |value, byte| value << 7 | u64::from(byte & 0x7f))
}

fn written(mut value: usize) -> Vec<u8> {
    let mut number = Vec::new();
    while value > 0x7f {
        number.push(value as u8 | 0x80);
        value >>= 7;
    }
    number.push(value as u8);
    number
}
