//! Skydoublet for Rust: a grammar that changes rule by rule, and lines of tokens parsed over it.
//!
//! A [`Table`] owns its pools, and they are all the memory there is: a parse that needs more is refused, and may come again.
//! Symbols are numbers: terminals 1 to 63, [`START`] 64, the other non-terminals 65 to 127. The calls themselves are proved Rattle
//! code in a static library (`embedding/library` makes it); [`lent`] has them for slices of one's own.

#[cfg(not(any(all(target_arch = "x86_64", target_os = "linux", target_pointer_width = "64"), skydoublet_unlinked)))]
compile_error!("skydoublet's static library links into programs for x86-64 Linux only: build for x86_64-unknown-linux-gnu");

mod calls;
pub mod lent;
mod refusal;
mod rule;
mod set;
mod table;

pub use refusal::Refusal;
pub use rule::{Rule, RuleState};
pub use set::Set;
pub use table::{Table, Verdict};

/// The non-terminal whose rules say what a line is.
pub const START: u8 = 64;
