//! The run: counts of what was compared, and the report of a difference.

use std::fmt::Debug;

use crate::call::Call;
use crate::failures::Failures;

/// The numbers that the library refuses with; each must come up in a run.
const REFUSALS: [usize; 21] = [1, 2, 3, 4, 5, 6, 7, 8, 10, 11, 12, 13, 14, 15, 16, 17, 18, 19, 20, 21, 22];

/// The number that no call may refuse with: no accepted input has a tally over 2^128 − 1.
const NEVER: usize = 9;

/// How many numbers there is room for: 0, where nothing is refused, and those of documents 01 and 02, 1 to 28.
const NUMBERS: usize = 29;

/// What has been compared so far.
pub struct Run {
    groups: Vec<Group>,
    inputs: u64,
    calls: [Compared; Call::ALL.len()],
    answers: [u64; NUMBERS],
    pub failures: Failures,
}

/// How much of one call has been compared, and the number of its last input.
#[derive(Clone, Copy, Default)]
struct Compared {
    inputs: u64,
    calls: u64,
    last: u64,
}

/// How much one group has compared.
struct Group {
    name: &'static str,
    inputs: u64,
    calls: u64,
}

impl Run {
    /// A run that has compared nothing.
    pub fn new() -> Run {
        let calls = [Compared::default(); Call::ALL.len()];
        Run { groups: Vec::new(), inputs: 0, calls, answers: [0; NUMBERS], failures: Failures::default() }
    }

    /// Begins a group of cases.
    pub fn begin(&mut self, name: &'static str) {
        let (inputs, calls) = (0, 0);
        self.groups.push(Group { name, inputs, calls });
    }

    /// The group begun last.
    fn group(&mut self) -> &mut Group {
        self.groups.last_mut().expect("a group has begun")
    }

    /// Counts one input: a pattern, or two to merge, with or without a text, a text to recode, one or two files, or a
    /// list of calls.
    pub fn input(&mut self) {
        self.inputs += 1;
        self.group().inputs += 1;
    }

    /// Counts one call that was refused with this number, 0 if it was not refused.
    pub fn call(&mut self, call: Call, number: u32) {
        self.group().calls += 1;
        let (input, compared) = (self.inputs, &mut self.calls[call as usize]);
        compared.inputs += u64::from(compared.last != input);
        (compared.calls, compared.last) = (compared.calls + 1, input);
        let number = number as usize;
        assert!(number == 0 || REFUSALS.contains(&number), "{call} refuses with {number}");
        self.answers[number] += 1;
    }

    /// Stops the group with the case written out, unless library and brute force agree.
    pub fn agree<T: PartialEq + Debug>(&self, library: &T, brute: &T, case: impl Fn() -> String) {
        if library != brute {
            panic!("{}\nlibrary: {library:?}\nbrute force: {brute:?}", case());
        }
    }

    /// Prints the counts.
    pub fn print(&self) {
        println!("{:<12} {:>9} {:>10}", "group", "inputs", "calls");
        for group in &self.groups {
            println!("{:<12} {:>9} {:>10}", group.name, group.inputs, group.calls);
        }
        let calls: u64 = self.groups.iter().map(|group| group.calls).sum();
        println!("{:<12} {:>9} {calls:>10}", "together", self.inputs);
        println!("\n{:<14} {:>7} {:>10}", "call", "inputs", "calls");
        for (call, compared) in Call::ALL.iter().zip(&self.calls) {
            println!("{call:<14} {:>7} {:>10}", compared.inputs, compared.calls);
        }
        println!();
        for number in REFUSALS {
            println!("refused with {number:>2}: {:>8}", self.answers[number]);
        }
        println!("refused with {NEVER:>2}: never");
        self.failures.print();
    }

    /// How many inputs all groups have compared.
    pub fn inputs(&self) -> u64 {
        self.inputs
    }

    /// The calls that were compared on fewer inputs than this.
    pub fn rare(&self, fewest: u64) -> Vec<&'static str> {
        let compared = Call::ALL.iter().zip(&self.calls);
        compared.filter(|(_, compared)| compared.inputs < fewest).map(|(call, _)| call.name()).collect()
    }

    /// The refusals' numbers that never came up.
    pub fn missing(&self) -> Vec<usize> {
        REFUSALS.into_iter().filter(|&number| self.answers[number] == 0).collect()
    }
}
