//! An independent model of the drive supervisor that document 01 defines,
//! with the requests of document 02 that have landed (M-101 to M-105).
//!
//! It was written from these (with the readings of `readings.md` and
//! `readings-requests.md`) and from nothing else, so that it can be compared,
//! record for record, with a program made by others.  It aims at being easy to
//! check against the paper: wide integers, no sharing of work between rules,
//! each rule once and beside its sentence.
//!
//! The parts of the supervisor:
//! * `settings`  the 24 settings and their rules,
//! * `load`      what a load brings: settings and sensors,
//! * `flag`      the flags that have a meaning,
//! * `state`     the ten states,
//! * `drive`     the drive state, load, the answer, the gates,
//! * `fields`    fields of a cycle and a tick: ranges and bytes,
//! * `cycle`     the cycle call,
//! * `hall`      Hall layouts, fates, steps and angles,
//! * `tick_fields` the fields of a tick: ranges, command, target,
//! * `tick`      the tick call: move, speed reference,
//! * `causes`    the causes that set flags,
//! * `image`     parameter images: reader, writer, analog choice,
//! * `block_load` the block load call,
//! * `line`      the report line call,
//! * `record`    records of the program,
//! * `program`   the program itself,
//! * `input`     what the bench programs take from their input,
//! * `benchline` and `blockline` the programs of the page on bench formats.
//!
//! The rest is for the comparison: `random` and `generator` make streams,
//! `reached` counts what a stream reaches; `bench_stream` and `bench_reached`
//! do so for `benchline`, `block_stream` and `block_reached` for `blockline`.
//! `sketch` draws the images of both, damaged ones too, `damage` tells what is
//! wrong with one, `image_rows` what is counted of it; `fate_rows` is what is
//! counted of the letter of M-105, `counts` holds names against a list, and
//! `written_stream` is what the programs that write a stream share.

pub mod bench_reached;
pub mod bench_stream;
pub mod benchline;
pub mod block_load;
pub mod block_reached;
pub mod block_stream;
pub mod blockline;
pub mod causes;
pub mod counts;
pub mod cycle;
pub mod damage;
pub mod drive;
pub mod fate_rows;
pub mod fields;
pub mod flag;
pub mod generator;
pub mod hall;
pub mod image;
pub mod image_rows;
pub mod input;
pub mod line;
pub mod load;
pub mod program;
pub mod random;
pub mod reached;
pub mod record;
pub mod settings;
pub mod sketch;
pub mod state;
pub mod tick;
pub mod tick_fields;
pub mod written_stream;

pub use cycle::CycleFields;
pub use drive::{Answer, Drive, Gate, Pair, Refusal, Reply};
pub use flag::Flag;
pub use hall::{Fate, Layout};
pub use line::report_line;
pub use record::Record;
pub use settings::{Setting, Settings};
pub use state::State;
pub use tick_fields::TickFields;
