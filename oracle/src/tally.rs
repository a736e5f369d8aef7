//! Request No. 7: logs of the steps after which holds are what the slots say, and
//! of nothing else.

mod draw;
mod prefixes;
mod premises;

pub use prefixes::many;
pub use premises::Tallied;
