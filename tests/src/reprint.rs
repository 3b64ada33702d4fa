//! What must hold of the print of every input: that of the reference reads back as the same set, and the program that
//! prints sets gives the same bytes, for the input and for its print.

use crate::load::{load, TEXT};
use crate::print::print;
use crate::report::{difference, shown, Report};
use crate::runner::{reference, External, Form};
use crate::shrink::shrink;
use crate::slip::Slip;
use crate::text;

/// A test of the reference, and one of the program if there is one.
pub fn test(report: &mut Report, name: &str, input: &[u8], external: &External) {
    let explained = |fault: &dyn Fn(&[u8]) -> Option<String>| {
        let small = shrink(input, &|input| fault(input).is_some());
        format!("{name}, its print: {}\n{}", fault(&small).unwrap_or_default(), shown(&small))
    };
    report.test(own_fault(input).is_none(), || explained(&own_fault));
    if external.print.is_some() {
        let fault = |input: &[u8]| program_fault(input, external);
        report.test(fault(input).is_none(), || explained(&fault));
    }
}

/// What is wrong with the reference's print of an input whose set text is taken.
fn own_fault(input: &[u8]) -> Option<String> {
    let set = load(text::split_at_star(input).0, Slip::None).ok()?;
    let Ok(printed) = print(&set, Slip::None) else {
        return Some("a loaded set is not sound".into());
    };
    if printed.len() > TEXT {
        return Some(format!("it has {} bytes", printed.len()));
    }
    let Ok(again) = load(&printed, Slip::None) else {
        return Some("it is refused".into());
    };
    if !set.is_same(&again) {
        return Some("it gives another set".into());
    }
    (print(&again, Slip::None) != Ok(printed)).then(|| "it prints otherwise".into())
}

/// Where the program prints otherwise than the reference, or its print otherwise than that print.
fn program_fault(input: &[u8], external: &External) -> Option<String> {
    let expected = reference(Form::Print, input, Slip::None);
    let found = external.output(Form::Print, input)?;
    if found != expected {
        return Some(difference(&expected, &found));
    }
    load(text::split_at_star(input).0, Slip::None).ok()?;
    let again = external.output(Form::Print, &found)?;
    (again != found).then(|| format!("printed again: {}", difference(&found, &again)))
}
