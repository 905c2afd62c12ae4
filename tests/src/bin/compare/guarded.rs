//! Buffers between guards, and what a call must leave in them.

const GUARDS: usize = 4;

/// Room between guards, filled with a mark.
pub struct Guarded<Item> {
    now: Vec<Item>,
    mark: Item,
    taken: Vec<Item>,
}

impl<Item: Copy + PartialEq> Guarded<Item> {
    /// Room that has to take these items; what stands behind them has to stay.
    pub fn taking(mark: Item, room: usize, taken: &[Item]) -> Guarded<Item> {
        Guarded { now: vec![mark; room + 2 * GUARDS], mark, taken: taken.to_vec() }
    }

    /// Room that holds these items and has to hold those, as many.
    pub fn holding(mark: Item, before: &[Item], after: &[Item]) -> Guarded<Item> {
        let guards = [mark; GUARDS];
        Guarded { now: [&guards, before, &guards].concat(), mark, taken: after.to_vec() }
    }

    /// Room for an answer's numbers, of which it has to take as many as fit.
    pub fn for_numbers(mark: Item, room: usize, numbers: &[Item]) -> Guarded<Item> {
        Guarded::taking(mark, room, &numbers[..room.min(numbers.len())])
    }

    pub fn room(&mut self) -> &mut [Item] {
        let end = self.now.len() - GUARDS;
        &mut self.now[GUARDS..end]
    }

    /// All of it, and the guards.
    pub fn all(&self) -> &[Item] {
        &self.now
    }

    pub fn is_right(&self) -> bool {
        self.first_wrong().is_none()
    }

    /// True if nothing around the room has changed, whatever is in it.
    pub fn guards_stay(&self) -> bool {
        let stays = |guards: &[Item]| guards.iter().all(|item| *item == self.mark);
        stays(&self.now[..GUARDS]) && stays(&self.now[self.now.len() - GUARDS..])
    }

    /// The first wrong item: where, what it is, and what it has to be.
    pub fn first_wrong(&self) -> Option<(i64, Item, Item)> {
        let wanted = |at: usize| {
            let taken = at.checked_sub(GUARDS).and_then(|at| self.taken.get(at));
            *taken.unwrap_or(&self.mark)
        };
        let at = (0..self.now.len()).find(|at| self.now[*at] != wanted(*at))?;
        Some((at as i64 - GUARDS as i64, self.now[at], wanted(at)))
    }
}

/// Two numbers below 3 that take every pair of values in turn, for every third question too.
pub fn turns(question: usize) -> [usize; 2] {
    let turn = question + question / 3;
    [turn % 3, (turn + question / 9) % 3]
}
