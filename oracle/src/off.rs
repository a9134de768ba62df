//! A party beside the model, on the domain and off it: guarded mode, cuts, recovery, every refusal, forged and damaged sessions, sums
//! and planning. The answers are compared byte for byte.

mod damage;
mod plans;
mod script;
mod sessions;
mod sums;

pub use plans::plans;
// used beside the lifted Rust only
#[cfg_attr(not(lifted), allow(unused_imports))]
pub use script::Script;
pub use sessions::session;
#[cfg_attr(not(lifted), allow(unused_imports))]
pub use sessions::session_of;
pub use sums::sums;
