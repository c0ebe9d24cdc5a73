//! The brute force: what every call must answer, worked out without the library.

mod bits;
mod calls;
#[cfg(test)]
mod crossed_out;
mod cursors;
mod enumerated;
mod expressions;
mod files;
mod largest;
mod limits;
mod lines;
mod merged;
mod numbers;
mod occurrences;
mod recoded;
mod refusal;
mod report;
mod rows;
#[cfg(test)]
mod self_tests;
#[cfg(test)]
mod self_tests_conditions;
#[cfg(test)]
mod self_tests_cursors;
#[cfg(test)]
mod self_tests_excluding;
#[cfg(test)]
mod self_tests_expressions;
#[cfg(test)]
mod self_tests_great;
#[cfg(test)]
mod self_tests_merged;
#[cfg(test)]
mod self_tests_recoded;
#[cfg(test)]
mod self_tests_starts;
#[cfg(test)]
mod self_tests_written;
mod ways;
mod windowed;
mod written;

pub use calls::{check, check_pattern, Brute};
pub use cursors::rewind;
pub use enumerated::Enumerated;
pub use expressions::Tree;
pub use files::{both_from_files, made_from_file, words_from_file};
pub use largest::{largest_sets, largest_size, overlap};
pub use limits::{pattern_of, with_slot};
pub use lines::line;
pub use merged::merge;
pub use occurrences::{failed, is_occurrence, Condition};
pub use recoded::Recoder;
pub use report::{count, report};
pub use rows::{sorted_by_slot, Row, Searcher};
pub use windowed::Windowed;
pub use written::{write_pattern, written};
