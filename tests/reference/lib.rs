//! A reference of the rules paper: its sentences as functions, in its order. Begin with `numbers`, then `state`, `pdu`
//! and `frames`; `calls` and `replay` are the run format around it.

pub mod answers;
pub mod calls;
pub mod conditions;
pub mod delay;
pub mod frames;
pub mod loss;
pub mod numbers;
pub mod octets;
pub mod pdu;
pub mod records;
pub mod replay;
pub mod replies;
pub mod sending;
pub mod settings;
pub mod state;
