//! How soon a wrong version is noticed.

use crate::engine::{Engine, ORIGINAL};
use crate::generate;
use crate::record::{Recorded, walks_far};
use crate::script::{self, Kind};
use crate::{mutants, mutations, named};
use std::panic::{AssertUnwindSafe, catch_unwind};

/// A panic of the wrong version counts as noticed.
fn differs((kind, bytes, lines): &Recorded, engine: Engine) -> bool {
    catch_unwind(AssertUnwindSafe(|| script::run(*kind, bytes, engine))).map_or(true, |ours| ours != *lines)
}

/// Prints for each mutation how many random scripts it took, from the seed on, and how many named and recorded ones notice it.
/// Returns whether each one was noticed by a random drill, by a named script and, where there are any, by a recorded one.
pub fn hunt(seed: u64, count: u64, recorded: &[Recorded]) -> bool {
    std::panic::set_hook(Box::new(|_| {}));
    let batch = |kind| -> Vec<Recorded> {
        (seed..seed + count).map(|seed| generate::script(kind, seed)).map(|one| (kind, one.bytes, one.lines)).collect()
    };
    let recorded: Vec<Recorded> = recorded.iter().filter(|one| !walks_far(one)).cloned().collect();
    let random = [batch(Kind::Session), batch(Kind::Drill)];
    let named: Vec<Recorded> = named::all()
        .into_iter()
        .filter(|one| !one.slow)
        .map(|one| (one.kind, script::run(one.kind, &one.bytes, ORIGINAL), one.bytes))
        .map(|(kind, lines, bytes)| (kind, bytes, lines))
        .filter(|one| !walks_far(one))
        .collect();
    println!(
        "random: how many scripts it took, of {count} of each kind; named, recorded: how many differ, of {} and {}",
        named.len(),
        recorded.len()
    );
    println!("{:48}{:>9}{:>9}{:>9}{:>10}", "", "session", "drill", "named", "recorded");
    let mut all = true;
    for (mutation, engine) in mutations::ALL.iter().zip(mutants::ENGINES) {
        let first = |list: &Vec<Recorded>| list.iter().position(|one| differs(one, *engine));
        let found = random.each_ref().map(first);
        let differing = |list: &[Recorded]| list.iter().filter(|one| differs(one, *engine)).count();
        let word = |found: Option<usize>| found.map_or("-".into(), |index| (index + 1).to_string());
        let (by_name, by_record) = (differing(&named), differing(&recorded));
        println!("{:48}{:>9}{:>9}{by_name:>9}{by_record:>10}", mutation.name, word(found[0]), word(found[1]));
        all &= found[1].is_some() && by_name > 0 && (by_record > 0 || recorded.is_empty());
    }
    println!("{} mutations, {}", mutations::ALL.len(), if all { "each noticed" } else { "NOT each noticed" });
    all
}
