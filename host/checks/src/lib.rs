//! The desk beside the twin: generated cases put to both, compared in number, record and untouched bytes.
#![forbid(unsafe_code)]

pub mod compare;
pub mod doors;
pub mod generate;
pub mod holders;
pub mod kinds;
pub mod listings;
pub mod numbering;
pub mod rules;
pub mod table;
pub mod texts;

use compare::{Checked, Checker, Difference};
use generate::Dice;
use kinds::KINDS;
use table::Table;

/// Boundaries once, and then rounds of the kind that is most behind its share, until there are that many cases; or rounds of the kinds named alone.
pub fn check(seed: u64, cases: u64, only: &[String]) -> Checked<Table> {
    let names: Vec<&'static str> = KINDS.iter().map(|kind| kind.name).collect();
    let mut checker = Checker::new(seed, &names);
    let mut rounds = [0; KINDS.len()];
    let wanted = |kind: &usize| only.is_empty() || only.iter().any(|name| name == KINDS[*kind].name);
    for kind in (0..KINDS.len()).filter(|&kind| KINDS[kind].share == 0 && wanted(&kind)) {
        round(&mut checker, seed, kind, &mut rounds)?;
    }
    while checker.table.cases() < cases {
        let shared = (0..KINDS.len()).filter(|&kind| KINDS[kind].share > 0 && wanted(&kind));
        let Some(behind) = shared.min_by_key(|&kind| checker.table.cases_of(kind) * 1_000 / KINDS[kind].share) else { break };
        round(&mut checker, seed, behind, &mut rounds)?;
    }
    Ok(checker.table)
}

fn round(checker: &mut Checker, seed: u64, kind: usize, rounds: &mut [u64]) -> Checked<()> {
    checker.kind = kind;
    let at = format!("{}, round {}, seed {seed}", KINDS[kind].name, rounds[kind]);
    let mut dice = Dice::of(seed, kind, rounds[kind]);
    rounds[kind] += 1;
    (KINDS[kind].round)(checker, &mut dice).map_err(|difference| Difference(format!("{at}: {difference}")))
}
