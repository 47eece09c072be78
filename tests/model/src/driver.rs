//! The driver's process: requests go in, answers come out, through pipes.

use std::io::{self, BufReader, Read, Write};
use std::process::{Child, ChildStdout, Command, Stdio};
use std::sync::mpsc::{channel, Sender};
use std::thread::JoinHandle;

pub struct Driver {
    child: Child,
    answers: BufReader<ChildStdout>,
    /// To the thread that writes, so that no answer waits for a request. Taken when the driver ends.
    requests: Option<Sender<Vec<u8>>>,
    writer: Option<JoinHandle<()>>,
}

impl Driver {
    pub fn start(command: &[String]) -> io::Result<Self> {
        let mut child =
            Command::new(&command[0]).args(&command[1..]).stdin(Stdio::piped()).stdout(Stdio::piped()).spawn()?;
        let mut stdin = child.stdin.take().expect("piped");
        let answers = BufReader::with_capacity(1 << 20, child.stdout.take().expect("piped"));
        let (requests, receiver) = channel::<Vec<u8>>();
        // A driver that died is noticed where its answer is missing.
        let writer = std::thread::spawn(move || {
            receiver.into_iter().all(|bytes| stdin.write_all(&bytes).is_ok());
        });
        Ok(Driver { child, answers, requests: Some(requests), writer: Some(writer) })
    }

    pub fn send(&self, bytes: Vec<u8>) {
        if let Some(requests) = &self.requests {
            // Fails where the writing ended as the driver died; see above.
            let _ = requests.send(bytes);
        }
    }

    pub fn receive(&mut self, size: usize, into: &mut Vec<u8>) -> io::Result<()> {
        into.resize(size, 0);
        self.answers.read_exact(into)
    }
}

impl Drop for Driver {
    fn drop(&mut self) {
        self.requests = None;
        if let Some(writer) = self.writer.take() {
            // The thread may be waiting for room in the pipe: take what is still to come.
            let _ = io::copy(&mut self.answers, &mut io::sink());
            let _ = writer.join();
        }
        let _ = self.child.wait();
    }
}
