//! How many of a sort there were, and how many there have to be.

use crate::route::MAX_HOPS;
use std::fmt;

/// How many of a sort there were, and how many there have to be.
pub struct Sort {
    pub name: &'static str,
    pub least: usize,
    pub seen: usize,
}

/// A sort of which nothing has been seen.
pub const fn sort(name: &'static str, least: usize) -> Sort {
    Sort {
        name,
        least,
        seen: 0,
    }
}

/// A sort for each number of hops.
pub fn sorts_of_hops(least: [usize; MAX_HOPS]) -> [Sort; MAX_HOPS] {
    const NAMES: [&str; MAX_HOPS] = [
        "1 hop", "2 hops", "3 hops", "4 hops", "5 hops", "6 hops", "7 hops", "8 hops",
    ];
    std::array::from_fn(|j| sort(NAMES[j], least[j]))
}

/// The sorts of schedules by the cycle of the last hop: 0, 1, and a later one.
pub fn sorts_of_cycles(least: [usize; 3]) -> [Sort; 3] {
    const NAMES: [&str; 3] = ["0:", "1:", "2 to 7:"];
    std::array::from_fn(|cycle| sort(NAMES[cycle], least[cycle]))
}

/// Counts one for the sort of this cycle.
pub fn add_cycle(sorts: &mut [Sort; 3], cycle: usize) {
    sorts[cycle.min(2)].add(true);
}

impl Sort {
    /// Counts one if it is of the sort.
    pub fn add(&mut self, is_of_it: bool) {
        self.seen += usize::from(is_of_it);
    }

    /// That too few were seen, in words.
    pub fn too_few(&self) -> Option<String> {
        let least = self.least;
        (self.seen < least).then(|| format!("{self}, and at least {least} have to be"))
    }
}

impl fmt::Display for Sort {
    fn fmt(&self, f: &mut fmt::Formatter<'_>) -> fmt::Result {
        write!(f, "{} {}", self.name, self.seen)
    }
}

/// Counts one for each of the sorts that it is of.
pub fn add_each(sorts: &mut [Sort], is_of: &[bool]) {
    for (sort, &is_of_it) in sorts.iter_mut().zip(is_of) {
        sort.add(is_of_it);
    }
}

/// How many of all these sorts there were.
pub fn total(sorts: &[Sort]) -> usize {
    sorts.iter().map(|sort| sort.seen).sum()
}

/// Some sorts, and the words before them.
pub type Line<'a> = (&'static str, &'a [Sort]);

/// Prints a line for each.
pub fn print_lines(lines: &[Line<'_>]) {
    for (words, sorts) in lines {
        let sorts: Vec<String> = sorts.iter().map(Sort::to_string).collect();
        println!("  {words}{}", sorts.join(", "));
    }
}

/// The first sort of which too few were seen, in words.
pub fn too_few_in(lines: &[Line<'_>]) -> Option<String> {
    lines.iter().find_map(|(words, sorts)| {
        let too_few = sorts.iter().find_map(Sort::too_few)?;
        Some(format!("{words}{too_few}"))
    })
}
