//! Compares the library with the brute force, and counts what was compared.

mod alone;
mod arranged;
mod both;
mod call;
mod column;
mod column_lengths;
mod column_totals;
mod conditions;
mod damage;
mod desk;
mod desk_isolation;
mod desk_quota;
mod desk_rising;
mod excluding;
mod exhaustive;
mod failures;
mod file_calls;
mod files;
mod lent;
mod limits;
mod long;
mod merged;
mod merged_refusals;
mod merged_rows;
mod order;
mod random;
mod recoded;
mod recoded_expressions;
mod recoded_order;
mod recoded_own;
mod recoded_texts;
mod run;
mod sentences;
mod spellings;
mod unsorted;
mod worked;
mod written;

use std::panic::{catch_unwind, AssertUnwindSafe};
use std::process::ExitCode;
use std::time::Instant;

use run::Run;

/// A group of cases, by its name.
type Group = (&'static str, fn(&mut Run));

/// All groups.
const GROUPS: [Group; 19] = [
    ("worked", worked::run),
    ("exhaustive", exhaustive::run),
    ("sentences", sentences::run),
    ("excluding", excluding::run),
    ("conditions", conditions::run),
    ("column", column::run),
    ("random", random::run),
    ("limits", limits::run),
    ("order", order::run),
    ("written", written::run),
    ("arranged", arranged::run),
    ("unsorted", unsorted::run),
    ("merged", merged::run),
    ("recoded", recoded::run),
    ("files", files::run),
    ("spellings", spellings::run),
    ("damage", damage::run),
    ("desk", desk::run),
    ("long", long::run),
];

/// The fewest inputs that a whole run compares.
const FEWEST_INPUTS: u64 = 100_000;

/// The fewest inputs that each call is compared on.
const FEWEST_OF_EACH: u64 = 2_000;

/// The fewest rows that fail each condition alone, and the fewest that it is then lifted for.
const FEWEST_ALONE: u64 = 1_000;

/// Runs all groups, prints the counts, and fails if a group differed, a refusal or a set of failed conditions never came
/// up, or a call or a condition that fails alone came up rarely.
fn main() -> ExitCode {
    let mut run = Run::new();
    let mut failed = Vec::new();
    for (name, group) in GROUPS {
        let begun = Instant::now();
        run.begin(name);
        if catch_unwind(AssertUnwindSafe(|| group(&mut run))).is_err() {
            failed.push(name);
        }
        println!("{name}: {:.1} s", begun.elapsed().as_secs_f64());
    }
    run.print();
    judge(&run, &failed)
}

/// Whether the run has compared what it must, without a difference.
fn judge(run: &Run, failed: &[&str]) -> ExitCode {
    let (missing, rare) = (run.missing(), run.rare(FEWEST_OF_EACH));
    let (unseen, seldom) = (run.failures.unseen(), run.failures.seldom(FEWEST_ALONE));
    let too_few = run.inputs() < FEWEST_INPUTS;
    let all_seen = missing.is_empty() && rare.is_empty() && unseen.is_empty() && seldom.is_empty();
    if failed.is_empty() && all_seen && !too_few {
        println!("library and brute force agree");
        return ExitCode::SUCCESS;
    }
    println!("FAILED: groups {failed:?}, refusals never seen {missing:?}, calls rarely seen {rare:?}");
    println!("sets of failed conditions never seen {unseen:?}, conditions rarely failed alone or lifted {seldom:?}");
    println!("too few inputs: {too_few}");
    ExitCode::FAILURE
}
