//! Cases too large for files: made here, their answers by rule.

use crate::cases::Case;
use crate::runner::Form;

/// Lines after which the programs end.
const LINES: usize = 1_000_000;
const ZEROS: usize = 1_000_000;

pub fn all() -> Vec<Case> {
    vec![
        beats_without_end(),
        last_beat_ill_formed(),
        calls_count_toward_the_lines(),
        calls_count_toward_k(),
        last_line("large-pe-as-line-1000000", Form::Synrun, "PE\n?", &good_beats()),
        last_line("large-rs-as-line-1000000", Form::Synrun, "RS\nA 0", &good_beats()),
        last_line(
            "large-pe-as-line-1000000",
            Form::Stat,
            "PE\n?",
            &format!("{ENDED}S IDS 2 waiting 999999\n"),
        ),
        last_line("large-rs-as-line-1000000", Form::Stat, "RS\nA 0", &format!("{ENDED}S IDS 2 waiting 0\n")),
        zeros_without_end(),
    ]
}

fn case(name: &str, input: String, expected: String) -> Case {
    Case { name: name.into(), form: Form::Synrun, input: input.into_bytes(), expected: expected.into_bytes() }
}

/// Document 01's example over more beats than are worked; the line after the last one is ill-formed.
fn beats_without_end() -> Case {
    let input = format!("{EXAMPLE}{}?\n", "A 1\nA 0\n".repeat(LINES / 2));
    let mut expected = String::new();
    for beat in (1..=LINES).step_by(2) {
        expected.push_str(&format!("C {beat} 0 1\nO 1 4 0 7\nC {} 0 0\n", beat + 1));
    }
    expected.push_str(&format!("END {LINES} 0 {}\n", LINES / 2));
    case("large-1000000-beats-then-an-ill-formed-line", input, expected)
}

/// The last beat that is worked has an ill-formed line.
fn last_beat_ill_formed() -> Case {
    let input = format!("ID=1 WHENEVER FALSE DO POS[X]=1\n*\n{}?\n", "M 0\n".repeat(LINES - 1));
    let good: String = (1..LINES).map(|beat| format!("C {beat} 0 0\n")).collect();
    case("large-beat-1000000-ill-formed", input, format!("{good}E {LINES}\n"))
}

/// Program ends and control resets among the lines that are worked; the beats behind them are not.
fn calls_count_toward_the_lines() -> Case {
    let input =
        format!("IDS=1 DO SETAL(65000)\n*\n{}{}?\n", "PE\nRS\n".repeat(LINES / 2 - 1), "A 0\n".repeat(3));
    let expected = "C 1 0 1\nO 1 5 0 65000\nC 2 0 1\nO 1 5 0 65000\nEND 2 0 2\n";
    case("large-pe-and-rs-count-toward-1000000", input, expected.into())
}

/// The last line that is worked is ill-formed, and those before it are no beats.
fn calls_count_toward_k() -> Case {
    let input = format!("IDS=1 DO SETAL(65000)\n*\n{}PE \n", "RS\n".repeat(LINES - 1));
    case("large-rs-then-line-1000000-ill-formed", input, format!("E {LINES}\n"))
}

/// Beats, and as the last line that is worked a program end or a control reset; the line behind it is not looked at.
fn last_line(name: &str, form: Form, lines: &str, expected: &str) -> Case {
    let input = format!("ID=1 DO $R[1]=1\nIDS=2 DO $R[2]=2\n*\n{}{lines}\n", "A 0\n".repeat(LINES - 1));
    Case { form, ..case(name, input, expected.into()) }
}

/// What `synrun` prints where all lines but one are beats without orders.
fn good_beats() -> String {
    let good: String = (1..LINES).map(|beat| format!("C {beat} 0 0\n")).collect();
    format!("{good}END {} 0 0\n", LINES - 1)
}

/// What `synstat` prints of the ID line that the last line cancels: it keeps its count.
const ENDED: &str = "S ID 1 cancelled 999999\n";

/// A beat line of leading zeros.
fn zeros_without_end() -> Case {
    let zeros = "0".repeat(ZEROS);
    let readings = ["00000000"; 8].join(" ");
    let input = format!("{EXAMPLE}A {zeros}1 {readings} -{zeros}5\nA {zeros}65536\n");
    case("large-leading-zeros", input, "C 1 0 1\nO 1 4 0 7\nE 2\n".into())
}

const EXAMPLE: &str = "ID=1 EVERY $A_IN[1]==1 DO $AC_MARKER[0]=$AC_MARKER[0]+1 M=7\n*\n";
