//! The recorder and the replayer in plain Rust, for speed: the same answers, refusals and log bytes
//! as the product.
//!
//! The algorithms are the product's. What a plain programmer would do otherwise is done otherwise
//! here: what is remembered is looked at in place and never copied, a position of 0 stands for no
//! access, sizes are held to their ranges once for a session, and an opening reads each log once.
//! Safe code throughout, and nothing is allocated.

pub mod cores;
pub mod logs;
pub mod recorder;
pub mod records;
pub mod reducers;
pub mod replayer;
pub mod sizes;
