//! Demands that each deliberate slip is found: by a case and by random inputs in what is printed, or by the history.

use crate::cases::Case;
use crate::generate;
use crate::report::Report;
use crate::runner::{reference, watched, Form};
use crate::slip::Slip;

/// Seeds that may be tried for a slip.
const SEEDS: u64 = 2000;
const LONG_SEEDS: u64 = 20;

pub fn find_slips(report: &mut Report, cases: &[Case]) {
    report.part();
    for slip in Slip::PRINTED {
        let case = cases.iter().find(|case| reference(case.form, &case.input, slip) != case.expected);
        found(report, slip, "case", case.map(|case| case.name.clone()));
        for form in [Form::Synrun, Form::Host, Form::Print, Form::Stat]
            .into_iter()
            .filter(|form| slip.shows_in(*form))
        {
            let seed = (0..SEEDS).find(|seed| differs(form, *seed, slip));
            found(report, slip, form.name(), seed.map(|seed| format!("seed {seed}")));
        }
    }
    for slip in Slip::PARTING {
        for (form, seeds) in [(Form::Host, SEEDS), (Form::Long, LONG_SEEDS)] {
            let seed = (0..seeds).find(|seed| watched(form, &generate::input(form, *seed), slip).1.is_some());
            let finder = format!("history, {}", form.name());
            found(report, slip, &finder, seed.map(|seed| format!("seed {seed}")));
        }
    }
}

fn found(report: &mut Report, slip: Slip, finder: &str, found: Option<String>) {
    println!("{slip:?}: {finder} {}", found.as_deref().unwrap_or("finds nothing"));
    report.test(found.is_some(), || format!("{slip:?} is not found by a {finder}"));
}

fn differs(form: Form, seed: u64, slip: Slip) -> bool {
    let input = generate::input(form, seed);
    reference(form, &input, Slip::None) != reference(form, &input, slip)
}
