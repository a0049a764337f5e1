//! The second program: the behaviour of the page "What to build and its rules", written a second
//! time from the documents alone, to be compared with the first.
//!
//! Section names in the comments are those of the page. The ways in are the functions named here,
//! one for each answer that is compared.

mod bus;
mod bytes;
mod file;
mod kind;
mod lent;
mod lines;
mod pec;
mod refusal;
mod replay;
mod session;
mod show;
mod socket;
mod summary;
mod table;
mod verdict;

pub use file::number;
pub use pec::pec;
pub use replay::replay;
pub use show::show;
pub use socket::socket;
