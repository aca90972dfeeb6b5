//! A program, run on an order.
use std::io::{Read, Write};
use std::process::{Child, Command, Stdio};
use std::sync::mpsc::{channel, Receiver};
use std::time::Duration;

/// How long a program may take for one order.
const PATIENCE: Duration = Duration::from_secs(60);

/// Standard output and standard error.
pub struct Said {
    pub out: Vec<u8>,
    pub err: String,
}

pub fn run(program: &str, order: &[u8]) -> Result<Said, String> {
    let mut child = Command::new(program)
        .stdin(Stdio::piped())
        .stdout(Stdio::piped())
        .stderr(Stdio::piped())
        .spawn()
        .map_err(|why| format!("{program} can't be started: {why}"))?;
    let said = talk(&mut child, order);
    if said.is_err() {
        let _ = child.kill();
    }
    let status = child.wait().map_err(|why| why.to_string())?;
    let said = said?;
    if status.code().is_none() { Err(format!("{program} was stopped: {status}")) } else { Ok(said) }
}

fn talk(child: &mut Child, order: &[u8]) -> Result<Said, String> {
    // A program may close its input after 4,097 bytes.
    let _ = child.stdin.take().unwrap().write_all(order);
    let (out, err) = (all_of(child.stdout.take().unwrap()), all_of(child.stderr.take().unwrap()));
    Ok(Said { out: heard(out)?, err: String::from_utf8_lossy(&heard(err)?).into_owned() })
}

fn all_of(mut pipe: impl Read + Send + 'static) -> Receiver<std::io::Result<Vec<u8>>> {
    let (sender, receiver) = channel();
    std::thread::spawn(move || {
        let mut bytes = Vec::new();
        let _ = sender.send(pipe.read_to_end(&mut bytes).map(|_| bytes));
    });
    receiver
}

fn heard(pipe: Receiver<std::io::Result<Vec<u8>>>) -> Result<Vec<u8>, String> {
    let bytes = pipe.recv_timeout(PATIENCE).map_err(|_| format!("no answer in {} seconds", PATIENCE.as_secs()))?;
    bytes.map_err(|why| why.to_string())
}
