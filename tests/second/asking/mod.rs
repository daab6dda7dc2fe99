//! How the desk's probe is asked: requests, scripts and replies as they travel,
//! and the conversation with the running program.

pub mod conversation;
pub mod part_calls;
pub mod probe;
pub mod replies;
pub mod values;
pub mod writer_script;
