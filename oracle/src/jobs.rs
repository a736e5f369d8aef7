//! The job dispatcher over the Rust's tables, and the scripts that drive it.

mod accepted;
mod astray;
mod dispatcher;
mod draw;
mod kinds;
mod script;
mod variants;
mod ways;

pub use astray::astray;
pub use dispatcher::Jobs;
