//! The cases on which the delivered programs are compared with the second program: files, dry runs
//! of sessions, also of those that begin with a summary, and tidy examples. The same seed gives the same cases.
//!
//! They share nothing with either side: they have their own PEC and their own regulator.

mod address;
mod device;
pub mod draft;
mod ending;
pub mod examples;
mod files;
pub mod line;
mod list;
mod numbers;
pub mod random;
mod sessions;
mod sockets;
mod spoil;
pub mod text;

pub use address::random_address;
pub use device::{ADDRESS_PLACE, HEADER_BYTES, LENGTH_BYTES, RULE_PLACE, SETTINGS_BYTES};
pub use ending::{at, At, Ending, Made, WHOLE};
pub use files::files;
pub use list::Case;
pub use sessions::sessions;
pub use sockets::sockets;
