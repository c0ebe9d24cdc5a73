//! Rows counted by the conditions of an occurrence that they fail.

use std::collections::BTreeMap;

use compare::brute::Condition;

/// How many rows fail each set of conditions, and how many become occurrences once the only condition that they fail is
/// lifted.
#[derive(Default)]
pub struct Failures {
    rows: BTreeMap<[bool; 4], u64>,
    lifted: [u64; 4],
}

impl Failures {
    /// Counts a row that fails these conditions.
    pub fn row(&mut self, failed: [bool; 4]) {
        *self.rows.entry(failed).or_default() += 1;
    }

    /// Counts a row that this condition was lifted for.
    pub fn lifted(&mut self, condition: Condition) {
        self.lifted[condition as usize] += 1;
    }

    /// How many rows failed these conditions and no others.
    fn rows(&self, failed: [bool; 4]) -> u64 {
        self.rows.get(&failed).copied().unwrap_or(0)
    }

    /// Prints the counts.
    pub fn print(&self) {
        println!("\n{:<25} {:>8} {:>8}", "failed conditions", "rows", "lifted");
        for set in sets() {
            let only = Condition::ALL.into_iter().find(|condition| set == condition.alone());
            let lifted = only.map_or(String::new(), |condition| self.lifted[condition as usize].to_string());
            println!("{:<25} {:>8} {lifted:>8}", names(set), self.rows(set));
        }
    }

    /// The sets of conditions that no row failed; there are rows for each.
    pub fn unseen(&self) -> Vec<String> {
        sets().filter(|&set| self.rows(set) == 0).map(names).collect()
    }

    /// The conditions that fewer rows than this failed alone, or that were lifted for fewer.
    pub fn seldom(&self, fewest: u64) -> Vec<&'static str> {
        let rows = |condition: Condition| self.rows(condition.alone()).min(self.lifted[condition as usize]);
        let seldom = Condition::ALL.into_iter().filter(|&condition| rows(condition) < fewest);
        seldom.map(Condition::name).collect()
    }
}

/// All sixteen sets of conditions.
fn sets() -> impl Iterator<Item = [bool; 4]> {
    (0..16).map(|bits| Condition::ALL.map(|condition| bits >> condition as usize & 1 == 1))
}

/// The names of a set's conditions.
fn names(set: [bool; 4]) -> String {
    let conditions = Condition::ALL.into_iter().filter(|&condition| set[condition as usize]);
    let names: Vec<&str> = conditions.map(Condition::name).collect();
    if names.is_empty() {
        return "none".to_string();
    }
    names.join(", ")
}
