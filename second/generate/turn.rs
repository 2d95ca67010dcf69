//! Going round, so that nothing is left to chance.

/// Goes round the numbers below a limit.
pub struct Turn {
    next: usize,
    limit: usize,
}

impl Turn {
    pub fn new(limit: usize) -> Turn {
        Turn { next: 0, limit }
    }

    pub fn take(&mut self) -> usize {
        let taken = self.next;
        self.next = (taken + 1) % self.limit;
        taken
    }
}

/// Choices made from the number of a turn: the first goes round fastest, and after as many turns as
/// there are combinations all of them have come.
pub struct Choices {
    rest: usize,
}

impl Choices {
    pub fn of(turn: usize) -> Choices {
        Choices { rest: turn }
    }

    /// A number below the limit.
    pub fn below(&mut self, limit: usize) -> usize {
        let chosen = self.rest % limit;
        self.rest /= limit;
        chosen
    }

    pub fn bool(&mut self) -> bool {
        self.below(2) == 1
    }

    pub fn pick<T: Copy>(&mut self, choices: &[T]) -> T {
        choices[self.below(choices.len())]
    }
}

/// All pairs of different numbers below a limit, the lower one first.
pub fn pairs_below(limit: usize) -> Vec<(usize, usize)> {
    (0..limit)
        .flat_map(|low| (low + 1..limit).map(move |high| (low, high)))
        .collect()
}
