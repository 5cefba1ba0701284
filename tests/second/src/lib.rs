//! The second program: the rules of documents 01 and 02 once more, in plain Rust, written from
//! the papers alone, so that a mistake has to be made twice to go unseen. The tests compare it
//! with the proved library, entry by entry. They prove nothing; the library's contracts do that.
//!
//! RATTLE_LIBS names the folder of libjeguarivo.a: `cargo test --release --offline`. Without it
//! the tests `grid`, `batches`, `straight`, `ground`, `ellipsoid`, `coverage`, `plotter`, `crews`, `settings`, `summary`, `sheets` and `rescue`
//! fail, and without RATTLE_BIN, the folder of the proved programs, the tests `programs`, `frame_program` and `office`; the
//! others try this program alone.
//! SECOND_SEED sets another seed for the inputs.
//!
//! - `grid`: names, codes, the plane, shapes, neighbours, cells that meet at a corner
//! - `batches`: codes into rows and columns, and back, many at a time (request W-202)
//! - `ground`: the cell of a fix and the ground nucleus, over the whole numbers of `big`
//! - `ellipsoid`: the authalic sine of a geodetic latitude (request W-203)
//! - `coverage`: the coverage text: check, list, write, ask
//! - `plotter`: metres, marks and frames for the plotter (request W-214), with no doubles computed
//! - `crews`: what two coverage texts cover (request W-205)
//! - `rescue`: hand-edited coverage texts made proper (request W-206)
//! - `sheets`: a partner's neighbour sheets (request W-211)
//! - `summary`: the counters kept beside a text, and questions answered from them (request W-207)
//! - `proved`: the proved library's entries, as examples/rust declares them
//! - `straight`: straight lines through cells (request W-212)
//! - `settings`: settings with a past, and a history as bytes (request W-209)
//! - `flights`: the programs `record` and `name_fixes` (`second_record` is a program of its own)
//! - `random`: inputs, good, at borders, and bad; `fixes` for fixes, `texts` for coverage texts,
//!   `edited` for hand-edited ones, `frames` for face sides and frames
//! - `compare`: runs both programs on many inputs and counts what was met

pub mod batches;
pub mod big;
pub mod compare;
pub mod coverage;
pub mod crews;
pub mod edited;
pub mod ellipsoid;
pub mod fixes;
pub mod flights;
pub mod frames;
pub mod grid;
pub mod ground;
pub mod plotter;
#[cfg(proved)]
pub mod proved;
pub mod random;
pub mod rescue;
pub mod sheets;
pub mod settings;
pub mod straight;
pub mod summary;
pub mod texts;
