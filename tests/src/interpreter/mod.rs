//! A plain interpreter of recipes, the code that one would write without the library: parse a line,
//! check it, run the steps, or work out their ranges. It is here to be timed beside the library.

mod run;
mod sheet;
mod text;

pub use run::{run, Recipe};
pub use sheet::sheet;

/// Number and place.
pub type Refused = (u64, usize);

#[derive(Clone, Copy, PartialEq, Eq)]
pub enum Kind {
    Double = 1,
    Whole = 2,
}
