//! Stands in for the kernel's `tasks.rs`, which is not at hand. The Rust text
//! names one constant of it, where it validates an entry's home processor and
//! where it parses an agent store. No comparison reaches either.

pub const N_CPUS: usize = 4;
