//! Makes an image smaller while it still shows what it shows.

/// Most pairs of a byte that is not 0 and another one, which are changed
/// together.
const PAIRS: usize = 64 * 64;

/// Bytes that all tries together may have, so that a long image whose counts
/// hold it together does not take hours.
const EFFORT: usize = 2 << 30;

/// Tries images with bytes taken out or lowered; each that shows is the next
/// to start from, so the last that shows is the smallest found.
pub fn shrink(image: &[u8], shows: &mut dyn FnMut(&[u8]) -> bool) {
    let mut shrinker = Shrinker {
        best: image.to_vec(),
        effort: EFFORT,
        shows,
    };
    loop {
        let before = shrinker.best.clone();
        shrinker.take_out();
        shrinker.lower();
        if shrinker.pairs() <= PAIRS {
            shrinker.lower_and_take_out();
        }
        if shrinker.best == before {
            return;
        }
    }
}

struct Shrinker<'a> {
    best: Vec<u8>,
    effort: usize,
    shows: &'a mut dyn FnMut(&[u8]) -> bool,
}

impl Shrinker<'_> {
    /// Takes a changed image for the best if it still shows.
    fn keep(&mut self, tried: Vec<u8>) -> bool {
        let cost = tried.len() + 1;
        if cost > self.effort {
            return false;
        }
        self.effort -= cost;
        let kept = (self.shows)(&tried);
        if kept {
            self.best = tried;
        }
        kept
    }

    fn pairs(&self) -> usize {
        let counts = self.best.iter().filter(|&&byte| byte != 0);
        counts.count() * self.best.len()
    }

    /// The best without the `run` bytes from `at` on.
    fn without(&self, at: usize, run: usize) -> Vec<u8> {
        [&self.best[..at], &self.best[at + run..]].concat()
    }

    /// Takes out runs of bytes, long ones first.
    fn take_out(&mut self) {
        let mut run = self.best.len();
        while run > 0 {
            let mut at = 0;
            while at + run <= self.best.len() {
                if !self.keep(self.without(at, run)) {
                    at += run.div_ceil(2);
                }
            }
            run /= 2;
        }
    }

    /// Lowers single bytes, to 0 if that will do.
    fn lower(&mut self) {
        for at in 0..self.best.len() {
            let byte = self.best[at];
            let lower = [0, 1, byte & 0x7f, byte / 2, byte.saturating_sub(1)];
            lower
                .into_iter()
                .filter(|&value| value < byte)
                .any(|value| {
                    let mut tried = self.best.clone();
                    tried[at] = value;
                    self.keep(tried)
                });
        }
    }

    /// Lowers a count and takes out what it counted, both at once.
    fn lower_and_take_out(&mut self) {
        let mut count = 0;
        while count < self.best.len() {
            if self.best[count] == 0 || !self.counted_out(count) {
                count += 1;
            }
        }
    }

    fn counted_out(&mut self, count: usize) -> bool {
        for at in count + 1..self.best.len() {
            for run in 1..=(self.best.len() - at).min(12) {
                let mut tried = self.without(at, run);
                tried[count] -= 1;
                if self.keep(tried) {
                    return true;
                }
            }
        }
        false
    }
}
