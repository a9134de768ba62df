//! The protocol of PROTOCOL.md: requests as bytes, and the parties that answer them: the model in this process, and a driver of
//! the port at the other end of a pipe. Two parties agree where their answers are the same bytes.

mod bytes;
mod calls;
mod party;
mod pipe;
mod plans;
mod requests;

pub use party::{Model, Slipped};
pub use pipe::Pipe;
pub use requests::*;

pub const SESSION_ROOM: usize = 8_512;
pub const RING_ROOM: usize = 528;
pub const RESULTS_ROOM: usize = 264;
pub const ARRAY_ROOM: usize = 2_064;

pub trait Party {
    fn name(&self) -> String;
    /// the answers of a batch of requests
    fn ask(&mut self, batch: &[u8]) -> Result<Vec<u8>, String>;
    /// after a failure
    fn restart(&mut self) -> Result<(), String> {
        Ok(())
    }
}
