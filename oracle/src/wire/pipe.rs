//! A driver of the port, at the other end of a pipe.

use super::Party;
use std::io::{Read, Write};
use std::process::{Child, ChildStdin, ChildStdout, Command, Stdio};

pub struct Pipe {
    child: Child,
    to: Option<ChildStdin>,
    from: ChildStdout,
    command: Vec<String>,
}

impl Pipe {
    pub fn start(command: &[String]) -> Result<Pipe, String> {
        let mut child = Command::new(&command[0])
            .args(&command[1..])
            .stdin(Stdio::piped())
            .stdout(Stdio::piped())
            .spawn()
            .map_err(|e| format!("{}: {e}", command[0]))?;
        let (to, from) = (child.stdin.take(), child.stdout.take().unwrap());
        Ok(Pipe { child, to, from, command: command.to_vec() })
    }

    fn exchange(&mut self, batch: &[u8]) -> std::io::Result<Vec<u8>> {
        let to = self.to.as_mut().ok_or(std::io::ErrorKind::BrokenPipe)?;
        to.write_all(&(batch.len() as u32).to_le_bytes())?;
        to.write_all(batch)?;
        to.flush()?;
        let mut head = [0; 4];
        self.from.read_exact(&mut head)?;
        let mut answer = vec![0; u32::from_le_bytes(head) as usize];
        self.from.read_exact(&mut answer)?;
        Ok(answer)
    }
}

impl Drop for Pipe {
    fn drop(&mut self) {
        self.to = None;
        let _ = self.child.wait();
    }
}

impl Party for Pipe {
    fn name(&self) -> String {
        self.command.join(" ")
    }

    fn ask(&mut self, batch: &[u8]) -> Result<Vec<u8>, String> {
        self.exchange(batch).map_err(|e| {
            self.to = None;
            format!("the driver ended: {e}, {:?}", self.child.wait())
        })
    }

    fn restart(&mut self) -> Result<(), String> {
        *self = Pipe::start(&self.command.clone())?;
        Ok(())
    }
}
