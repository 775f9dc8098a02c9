//! What the comparisons of the page kernel and of the block kernel share.

pub mod answers;
pub mod judged;
pub mod lent;
pub mod rounds;
