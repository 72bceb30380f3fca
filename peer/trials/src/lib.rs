//! Two implementations of the store beside each other: the proved library, behind its C interface, and the peer.

mod library;
pub mod pair;
pub mod script;
pub mod shrink;
pub mod store;
pub mod tally;
