//! A second implementation of every call, written from the specification and not from the
//! library's code, to compare the library with. Only the plain answer types are shared.
//!
//! Its finder works another way than the library's: pop summaries by rising cost (`summaries`),
//! then distances and words over them (`reach`, `words`). Reductions that break are found by the
//! same finder in another book (`breaks`). Its checker of certificates goes along roads from their
//! ends (`certificate`).
#![allow(dead_code)] // no single test uses all of it

pub mod book;
pub mod breaks;
pub mod calls;
pub mod certificate;
pub mod list;
pub mod machine;
pub mod numbers;
pub mod reach;
pub mod summaries;
pub mod words;
