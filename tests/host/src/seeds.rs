//! Which seeds are played: fixed ones, the same in every run, and fresh ones, a tenth as many, whose first tests/kit.py
//! draws and prints.

/// Of so many fixed seeds there is one fresh one; tests/kit.py has the same.
const PART: usize = 10;

#[derive(Clone, Copy)]
pub struct Seeds {
    fresh: u64,
    first: Option<u64>,
}

impl Seeds {
    /// By the words of the command line: the first fresh one, and the first fixed one where those are played too.
    pub fn from_words(words: &[String]) -> Option<Seeds> {
        let (fresh, first) = match words {
            [fresh] => (fresh, None),
            [fresh, first] => (fresh, Some(first.parse().ok()?)),
            _ => return None,
        };
        let fresh = fresh.parse().ok()?;
        Some(Seeds { fresh, first })
    }

    /// The fresh ones beside so many fixed ones, and those.
    pub fn of(self, count: usize) -> Vec<u64> {
        self.beside(count.div_ceil(PART), count)
    }

    /// The same of one of several things that take long, of which the fresh seed plays one alone: whose turn it is.
    pub fn by_turns(self, turn: u64, turns: u64, count: usize) -> Vec<u64> {
        self.beside(usize::from(self.fresh % turns == turn), count)
    }

    /// The fixed come last, so that what is played on does not depend on the fresh ones, and so that these are shown first
    /// where nearly all fail.
    fn beside(self, fresh: usize, count: usize) -> Vec<u64> {
        let fixed = self.first.map(|first| (first..).take(count));
        let fresh = (self.fresh..).take(fresh);
        fresh.chain(fixed.into_iter().flatten()).collect()
    }

    /// Whether enough is played that all must be seen: it is known of the fixed ones, and a few fresh ones may miss a rare
    /// thing.
    pub fn see_all(self) -> bool {
        self.first.is_some()
    }
}
