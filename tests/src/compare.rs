//! Compares the reference with the cases, its flags with its history, and external programs with both the cases and the
//! reference.

use crate::cases::Case;
use crate::generate;
use crate::report::{difference, shown, Report};
use crate::reprint;
use crate::runner::{reference, watched, External, Form};
use crate::shrink::shrink;
use crate::slip::Slip;
use std::ops::Range;
use std::thread;

/// Room for trees as deep as set text can make them.
const STACK: usize = 64 << 20;

/// Every case, by the reference and by the external programs.
pub fn compare_cases(report: &mut Report, cases: &[Case], external: &External) {
    report.part();
    for case in cases {
        let (found, parted) = watched(case.form, &case.input, Slip::None);
        report.test(parted.is_none(), || format!("{} case {}: {parted:?}", case.form.name(), case.name));
        report.test(found == case.expected, || {
            format!("{} case {}: {}", case.form.name(), case.name, difference(&case.expected, &found))
        });
        if let Some(found) = external.output(case.form, &case.input) {
            report.test(found == case.expected, || {
                let difference = difference(&case.expected, &found);
                format!("{} case {} by the program: {difference}", case.form.name(), case.name)
            });
        }
        reprint::test(report, &format!("{} case {}", case.form.name(), case.name), &case.input, external);
    }
}

/// Every seed of a form, a share of them for each processor.
pub fn compare_seeds(report: &mut Report, form: Form, seeds: Range<u64>, external: &External) {
    report.part();
    let shares = thread::available_parallelism().map_or(1, |n| n.get() as u64);
    thread::scope(|scope| {
        let share = |first| {
            let seeds = (seeds.start + first..seeds.end).step_by(shares as usize);
            let work = move || compare_share(form, seeds, external);
            thread::Builder::new().stack_size(STACK).spawn_scoped(scope, work).expect("a thread for a share")
        };
        let started: Vec<_> = (0..shares).map(share).collect();
        for share in started {
            report.add(share.join().expect("a share ends"));
        }
    });
}

/// The reference keeps its set and state sound, its history decides as its flags do, the program prints the same, and so
/// does the program that prints sets.
fn compare_share(form: Form, seeds: impl Iterator<Item = u64>, external: &External) -> Report {
    let mut report = Report::default();
    for seed in seeds {
        let input = generate::input(form, seed);
        let (expected, parted) = watched(form, &input, Slip::None);
        report.test(parted.is_none(), || explain_parting(form, seed, &input));
        if form == Form::Synrun {
            report.test(!unsound(&expected), || format!("seed {seed}: the reference answers 22"));
        }
        let program = if form == Form::Print { None } else { external.output(form, &input) };
        if let Some(found) = program {
            report.test(found == expected, || explain(form, seed, &input, external));
        }
        reprint::test(&mut report, &format!("{} seed {seed}", form.name()), &input, external);
    }
    report
}

/// A beat of `synrun` with code 22, which a set from a load never gives.
fn unsound(output: &[u8]) -> bool {
    output.split(|byte| *byte == b'\n').any(|line| line.starts_with(b"C ") && line.ends_with(b" 22 0"))
}

/// A seed on which the program differs, with its input made small.
fn explain(form: Form, seed: u64, input: &[u8], external: &External) -> String {
    let outputs = |input: &[u8]| {
        let found = external.output(form, input).unwrap_or_default();
        (reference(form, input, Slip::None), found)
    };
    let small = shrink(input, &|input| {
        let (expected, found) = outputs(input);
        expected != found
    });
    let (expected, found) = outputs(&small);
    format!("{} seed {seed}: {}\n{}", form.name(), difference(&expected, &found), shown(&small))
}

/// A seed on which the history decides otherwise than the flags, with its input made small.
fn explain_parting(form: Form, seed: u64, input: &[u8]) -> String {
    let parted = |input: &[u8]| watched(form, input, Slip::None).1;
    let small = shrink(input, &|input| parted(input).is_some());
    format!("{} seed {seed}: {}\n{}", form.name(), parted(&small).unwrap_or_default(), shown(&small))
}
