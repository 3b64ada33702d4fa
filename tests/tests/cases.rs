//! Every case in the folders, by the interpreter.

use reference::cases;
use reference::report::difference;
use reference::runner::reference;
use reference::slip::Slip;
use std::thread;

/// Room for trees as deep as set text can make them.
const STACK: usize = 64 << 20;

#[test]
fn every_case_is_answered_as_written_down() {
    let work = || {
        let cases = cases::all().expect("the folders of cases");
        assert!(!cases.is_empty());
        for case in cases {
            let found = reference(case.form, &case.input, Slip::None);
            let difference = difference(&case.expected, &found);
            assert!(found == case.expected, "{} case {}: {difference}", case.form.name(), case.name);
        }
    };
    let worker = thread::Builder::new().stack_size(STACK).spawn(work).expect("a thread for the cases");
    worker.join().expect("every case passes");
}
