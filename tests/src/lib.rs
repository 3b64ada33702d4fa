//! An independent interpreter of set text and beats, and what compares a control with it.
//!
//! The interpreter: `token`, `parse`, `tree`, `check`, `load`, `set`, `written_curves`, `state`, `fifo`, `beat`,
//! `evaluate`, `curve`, `variables`, `reading`, `control`, `status`, `print`. Its flags are held against `history` by `witness`.
//! The programs: `synrun`, `synprint`, `synstat`, `host_session`. The rest makes inputs for them and compares what they print.

pub mod beat;
pub mod beat_line;
pub mod calls_seen;
pub mod cases;
pub mod check;
pub mod code;
pub mod compare;
pub mod control;
pub mod coverage;
pub mod curve;
pub mod damage;
pub mod evaluate;
pub mod fields;
pub mod fifo;
pub mod generate;
pub mod history;
pub mod host_calls;
pub mod host_line;
pub mod host_print_seen;
pub mod host_session;
pub mod large;
pub mod listing;
pub mod load;
pub mod order;
pub mod parse;
pub mod print;
pub mod print_seen;
pub mod random;
pub mod reading;
pub mod report;
pub mod reprint;
pub mod runner;
pub mod seen;
pub mod set;
pub mod shrink;
pub mod slip;
pub mod slips;
pub mod state;
pub mod status;
pub mod synprint;
pub mod synrun;
pub mod synstat;
pub mod text;
pub mod token;
pub mod tree;
pub mod value;
pub mod variables;
pub mod witness;
pub mod written_curves;
