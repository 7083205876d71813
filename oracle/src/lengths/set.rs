//! Sets of lengths: each number of bits below a horizon, and whether there is
//! one from the horizon on.

use std::fmt;

use crate::answer::elements::groups;

/// Lengths below this are told one from another.
pub const HORIZON: u64 = 1_024;

const WORD: u64 = 64;
const WORDS: usize = (HORIZON / WORD) as usize;

#[derive(Clone, Copy, PartialEq, Eq, Hash)]
pub struct Lengths {
    words: [u64; WORDS],
    /// A length at the horizon or past it is in the set.
    beyond: bool,
}

impl Lengths {
    pub const NONE: Self = Self {
        words: [0; WORDS],
        beyond: false,
    };

    pub fn one(bits: u64) -> Self {
        let mut set = Self::NONE;
        set.put(bits);
        set
    }

    /// Every number of bits from this one on.
    pub fn any_from(bits: u64) -> Self {
        let mut set = Self::NONE;
        (bits..HORIZON).for_each(|length| set.put(length));
        set.beyond = true;
        set
    }

    pub fn put(&mut self, bits: u64) {
        match self.words.get_mut((bits / WORD) as usize) {
            Some(word) => *word |= 1 << (bits % WORD),
            None => self.beyond = true,
        }
    }

    /// What is in one of both.
    pub fn or(mut self, other: &Self) -> Self {
        for (word, more) in self.words.iter_mut().zip(other.words) {
            *word |= more;
        }
        self.beyond |= other.beyond;
        self
    }

    /// Each length so many bits longer.
    pub fn longer(&self, by: u64) -> Self {
        if by >= HORIZON {
            return Self {
                beyond: !self.is_empty(),
                ..Self::NONE
            };
        }
        let (skip, shift) = ((by / WORD) as usize, by % WORD);
        let mut set = Self {
            beyond: self.beyond,
            ..Self::NONE
        };
        for (at, &word) in self.words.iter().enumerate() {
            let moved = u128::from(word) << shift;
            for (part, bits) in [moved as u64, (moved >> WORD) as u64]
                .into_iter()
                .enumerate()
            {
                match set.words.get_mut(at + skip + part) {
                    Some(word) => *word |= bits,
                    None => set.beyond |= bits != 0,
                }
            }
        }
        set
    }

    /// Each length up to a multiple of 8, which the horizon is too.
    pub fn in_bytes(&self) -> Self {
        let whole = self.below_horizon().map(|bits| bits.next_multiple_of(8));
        let mut set: Self = whole.collect();
        set.beyond |= self.beyond;
        set
    }

    /// A length of this set and one of the other together.
    pub fn plus(&self, other: &Self) -> Self {
        let (mine, others) = (self.runs(), other.runs());
        let (runs, set) = if mine.len() <= others.len() {
            (mine, other)
        } else {
            (others, self)
        };
        let mut sum = Self::NONE;
        for (start, count) in runs {
            sum = sum.or(&set.smeared(count).longer(start));
        }
        let far = |one: &Self, other: &Self| one.beyond && !other.is_empty();
        sum.beyond |= far(self, other) || far(other, self);
        sum
    }

    /// So many lengths together; none of them are 0 bits. More than the horizon has
    /// bits are the same: those that are not 0 lie past it.
    pub fn times(&self, count: u64) -> Self {
        if let Some(sum) = self.many_times(count) {
            return sum;
        }
        let mut count = count.min(HORIZON);
        let (mut sum, mut power) = (Self::one(0), *self);
        while count > 0 {
            if count & 1 == 1 {
                sum = sum.plus(&power);
            }
            count >>= 1;
            if count > 0 {
                power = power.plus(&power);
            }
        }
        sum
    }

    /// The same where so many that are not 0 are sure to reach the horizon.
    fn many_times(&self, count: u64) -> Option<Self> {
        let (_, most) = self.ends()?;
        let least = self.below_horizon().find(|&bits| bits > 0)?;
        let far = self.beyond || most.saturating_mul(count) >= HORIZON;
        match self.has(0) {
            Some(true) if (HORIZON - 1) / least <= count => {
                let mut sum = self.any_number();
                sum.beyond = far;
                Some(sum)
            }
            Some(false) if least.saturating_mul(count) >= HORIZON => Some(Self::one(HORIZON)),
            _ => None,
        }
    }

    /// Any number of lengths together, below the horizon.
    fn any_number(&self) -> Self {
        let mut all = Self::one(0);
        for bits in self.below_horizon().filter(|&bits| bits > 0) {
            // Else it is a sum of those before it, which are in.
            if all.has(bits) == Some(false) {
                let mut step = bits;
                while step < HORIZON {
                    all = all.or(&all.longer(step));
                    step *= 2;
                }
            }
        }
        all
    }

    /// An array of up to `most` such elements: their count, 8 bits for each group of
    /// seven bits that it takes, and then so many of them.
    pub fn counted(&self, most: u64) -> Self {
        let one_or_none = self.or(&Self::one(0));
        // From the horizon on, as many elements are the same as more.
        let many = (most >= HORIZON).then(|| self.times(HORIZON));
        let mut all = Self::NONE;
        let mut first = 0;
        loop {
            let groups = groups(first);
            // Ten groups hold every count.
            let last = match groups {
                10 => u64::MAX,
                _ => (1 << (7 * groups)) - 1,
            };
            let last = last.min(most);
            let elements = match many {
                Some(many) if first >= HORIZON => many,
                _ => self.times(first).plus(&one_or_none.times(last - first)),
            };
            all = all.or(&elements.longer(8 * groups));
            if last == most {
                return all;
            }
            first = last + 1;
        }
    }

    /// Each length, and up to `count` − 1 bits more.
    fn smeared(&self, count: u64) -> Self {
        let (mut set, mut done) = (*self, 1);
        while done < count {
            let step = done.min(count - done);
            set = set.or(&set.longer(step));
            done += step;
        }
        set
    }

    /// Numbers below the horizon that follow one another: the first, and how many.
    fn runs(&self) -> Vec<(u64, u64)> {
        let mut runs: Vec<(u64, u64)> = Vec::new();
        for bits in self.below_horizon() {
            match runs.last_mut() {
                Some((start, count)) if *start + *count == bits => *count += 1,
                _ => runs.push((bits, 1)),
            }
        }
        runs
    }

    fn below_horizon(&self) -> impl Iterator<Item = u64> + '_ {
        let words = self.words.iter().enumerate();
        words.flat_map(|(at, &word)| {
            let mut left = word;
            std::iter::from_fn(move || {
                let bit = u64::from(left.trailing_zeros());
                (left != 0).then(|| {
                    left &= left - 1;
                    at as u64 * WORD + bit
                })
            })
        })
    }

    pub fn is_empty(&self) -> bool {
        !self.beyond && self.words == [0; WORDS]
    }

    pub fn reaches_beyond(&self) -> bool {
        self.beyond
    }

    /// Whether a length is in; none if that is past the horizon.
    pub fn has(&self, bits: u64) -> Option<bool> {
        match self.words.get((bits / WORD) as usize) {
            Some(word) => Some(word >> (bits % WORD) & 1 == 1),
            None if self.beyond => None,
            None => Some(false),
        }
    }

    /// The least and the greatest below the horizon.
    pub fn ends(&self) -> Option<(u64, u64)> {
        let first = self.below_horizon().next()?;
        let word = self.words.iter().rposition(|&word| word != 0)?;
        let last = WORD - 1 - u64::from(self.words[word].leading_zeros());
        Some((first, word as u64 * WORD + last))
    }
}

impl FromIterator<u64> for Lengths {
    fn from_iter<I: IntoIterator<Item = u64>>(lengths: I) -> Self {
        let mut set = Self::NONE;
        lengths.into_iter().for_each(|bits| set.put(bits));
        set
    }
}

impl fmt::Debug for Lengths {
    fn fmt(&self, out: &mut fmt::Formatter<'_>) -> fmt::Result {
        for (start, count) in self.runs() {
            match count {
                1 => write!(out, "{start} ")?,
                _ => write!(out, "{start}..={} ", start + count - 1)?,
            }
        }
        if self.beyond {
            write!(out, "and from {HORIZON} on")?;
        }
        Ok(())
    }
}
