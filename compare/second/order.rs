//! The order of a run by its definition: all instructions are kept, with what is before each.

use crate::cores::Access;

/// Instruction `count` of a core.
#[derive(Clone, Copy, Debug, PartialEq, Eq)]
pub struct Instruction {
    pub core: usize,
    pub count: u16,
}

/// An accepted turn of the run. Its place in the run is its position less one.
#[derive(Clone, Copy, Debug)]
struct Accepted {
    instruction: Instruction,
    access: Option<Access>,
}

/// A set of places of the run.
#[derive(Clone, Debug, Default)]
struct Places {
    words: Vec<u64>,
}

impl Places {
    fn insert(&mut self, place: usize) {
        let word = place / 64;
        if self.words.len() <= word {
            self.words.resize(word + 1, 0);
        }
        self.words[word] |= 1 << (place % 64);
    }

    fn contains(&self, place: usize) -> bool {
        self.words
            .get(place / 64)
            .is_some_and(|word| word >> (place % 64) & 1 == 1)
    }

    fn insert_all(&mut self, other: &Places) {
        if self.words.len() < other.words.len() {
            self.words.resize(other.words.len(), 0);
        }
        for (word, more) in self.words.iter_mut().zip(&other.words) {
            *word |= more;
        }
    }
}

/// A run, with the set of all places before each place in its order.
#[derive(Clone, Debug, Default)]
pub struct Run {
    turns: Vec<Accepted>,
    before: Vec<Places>,
}

impl Run {
    /// Adds an accepted turn at the end and gives its place.
    pub fn add(&mut self, instruction: Instruction, access: Option<Access>) -> usize {
        let place = self.turns.len();
        self.turns.push(Accepted {
            instruction,
            access,
        });
        self.before.push(self.all_before(place));
        place
    }

    pub fn instruction(&self, place: usize) -> Instruction {
        self.turns[place].instruction
    }

    /// The closure of program order and conflict order, for the last place: every earlier
    /// place that is directly before it, and all that is before such a place.
    fn all_before(&self, place: usize) -> Places {
        let mut all = Places::default();
        for earlier in (0..place).filter(|&earlier| self.directly_before(earlier, place)) {
            all.insert(earlier);
            all.insert_all(&self.before[earlier]);
        }
        all
    }

    /// Program order or conflict order, for an earlier and a later place.
    fn directly_before(&self, earlier: usize, later: usize) -> bool {
        self.core(earlier) == self.core(later) || self.conflict(earlier, later)
    }

    fn conflict(&self, one: usize, other: usize) -> bool {
        match (self.turns[one].access, self.turns[other].access) {
            (Some(a), Some(b)) => {
                self.core(one) != self.core(other) && a.cell == b.cell && (a.stores || b.stores)
            }
            _ => false,
        }
    }

    fn core(&self, place: usize) -> usize {
        self.turns[place].instruction.core
    }

    /// The sources of the transitive reduction between cores whose target is at a place, latest
    /// first: what is before the target, of another core, with no third instruction between.
    pub fn reduction_to(&self, target: usize) -> Vec<usize> {
        let before_target = &self.before[target];
        let mut with_third = Places::default();
        for third in (0..target).filter(|&third| before_target.contains(third)) {
            with_third.insert_all(&self.before[third]);
        }
        (0..target)
            .rev()
            .filter(|&source| before_target.contains(source) && !with_third.contains(source))
            .filter(|&source| self.core(source) != self.core(target))
            .collect()
    }

    /// The candidates of the access at a place, latest first, found by going through the run.
    pub fn candidates(&self, target: usize) -> Vec<usize> {
        let Some(access) = self.turns[target].access else {
            return Vec::new();
        };
        let last_write = self.last_write(access.cell, target);
        let of_another_core = |place: &usize| self.core(*place) != self.core(target);
        let mut found: Vec<usize> = if access.stores {
            (0..4)
                .filter(|&core| core != self.core(target))
                .filter_map(|core| {
                    self.remembered_read(access.cell, core, last_write, target)
                        .or(last_write.filter(|&place| self.core(place) == core))
                })
                .collect()
        } else {
            last_write.filter(of_another_core).into_iter().collect()
        };
        found.sort_unstable_by(|one, other| other.cmp(one));
        found
    }

    /// The latest write or exchange of a cell before a place.
    fn last_write(&self, cell: u16, end: usize) -> Option<usize> {
        let write = Some(Access { cell, stores: true });
        (0..end)
            .rev()
            .find(|&place| self.turns[place].access == write)
    }

    /// The latest read of a cell by a core before a place and since the cell's last write.
    fn remembered_read(
        &self,
        cell: u16,
        core: usize,
        last_write: Option<usize>,
        end: usize,
    ) -> Option<usize> {
        let read = Some(Access {
            cell,
            stores: false,
        });
        let start = last_write.map_or(0, |place| place + 1);
        (start..end)
            .rev()
            .find(|&place| self.turns[place].access == read && self.core(place) == core)
    }
}
