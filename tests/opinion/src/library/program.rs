//! The program that holds the memories and makes the library's calls: desk.c, behind two pipes.
//! The head of desk.c says what it is told and what it answers.

use std::cell::{Cell, RefCell};
use std::io::{BufReader, Error, ErrorKind, Read, Write};
use std::process::{Child, ChildStdin, ChildStdout, Command, Stdio};

/// What no call may do, whatever it is lent.
pub type Fault = String;

/// Commands for the program.
pub struct Request(Vec<u8>);

impl Request {
    pub fn new(command: u8) -> Request {
        Request(vec![command])
    }

    pub fn number(mut self, number: usize) -> Request {
        self.0.extend((number as u64).to_le_bytes());
        self
    }

    /// `shift` moves the memory's start, so that it is not always aligned.
    pub fn lent(self, bytes: &[u8], shift: usize) -> Request {
        let mut request = self.number(shift).number(bytes.len());
        request.0.extend(bytes);
        request
    }

    pub fn then(mut self, other: Request) -> Request {
        self.0.extend(other.0);
        self
    }
}

/// What a call gave, and what it changed.
pub struct Reply {
    /// Empty where all is well.
    pub fault: Fault,
    pub status: u8,
    pub bytes: Vec<u8>,
    pub changes: Vec<Run>,
}

/// Bytes that the segment (0), the blocks (1) or the buffers (2) have now.
pub struct Run {
    pub part: usize,
    pub at: usize,
    pub bytes: Vec<u8>,
}

/// One part more than there are: no change follows.
const NO_MORE: usize = 3;

/// The library, as the program gives it.
pub struct Library {
    words: Vec<String>,
    running: RefCell<Option<Running>>,
    hosts: Cell<usize>,
    /// The host whose memories the program holds, as its last call left them; 0 for none.
    lender: Cell<usize>,
}

impl Library {
    /// The command line that starts the program, in words.
    pub fn new(words: &[&str]) -> Result<Library, Fault> {
        let words: Vec<String> = words.iter().map(|word| word.to_string()).collect();
        let running = RefCell::new(Some(Running::start(&words, Stdio::inherit())?));
        Ok(Library { words, running, hosts: Cell::new(0), lender: Cell::new(0) })
    }

    /// A number for one more host.
    pub fn new_host(&self) -> usize {
        self.hosts.set(self.hosts.get() + 1);
        self.hosts.get()
    }

    pub fn lender(&self) -> usize {
        self.lender.get()
    }

    /// A call, on the memories that this host lends or has lent.  Where the program ends instead,
    /// that is a fault, and the next request starts it anew.
    pub fn ask(&self, host: usize, request: &Request) -> Result<Reply, Fault> {
        let running = self.running.take();
        // What it says of its end need not be heard twice.
        let start = || Running::start(&self.words, Stdio::null());
        let mut running = running.map_or_else(start, Ok)?;
        self.lender.set(0);
        let reply = running.ask(request).map_err(|error| running.end(error))?;
        self.lender.set(host);
        self.running.replace(Some(running));
        Ok(reply)
    }
}

struct Running {
    child: Child,
    input: ChildStdin,
    output: BufReader<ChildStdout>,
}

impl Running {
    fn start(words: &[String], errors: Stdio) -> Result<Running, Fault> {
        let (program, rest) = words.split_first().ok_or("no program is named")?;
        let mut command = Command::new(program);
        command.args(rest).stdin(Stdio::piped()).stdout(Stdio::piped()).stderr(errors);
        let mut child = command.spawn().map_err(|error| format!("{program}: {error}"))?;
        let input = child.stdin.take().expect("standard input is a pipe");
        let output = child.stdout.take().expect("standard output is a pipe");
        Ok(Running { child, input, output: BufReader::with_capacity(1 << 16, output) })
    }

    fn ask(&mut self, request: &Request) -> Result<Reply, Error> {
        self.input.write_all(&request.0)?;
        let fault = String::from_utf8_lossy(&self.bytes()?).into_owned();
        let status = self.number()? as u8;
        let bytes = self.bytes()?;
        let mut changes = Vec::new();
        loop {
            match self.number()? {
                NO_MORE => return Ok(Reply { fault, status, bytes, changes }),
                part => changes.push(Run { part, at: self.number()?, bytes: self.bytes()? }),
            }
        }
    }

    fn number(&mut self) -> Result<usize, Error> {
        let mut bytes = [0; 8];
        self.output.read_exact(&mut bytes)?;
        Ok(u64::from_le_bytes(bytes) as usize)
    }

    fn bytes(&mut self) -> Result<Vec<u8>, Error> {
        let length = self.number()?;
        let mut bytes = Vec::new();
        (&mut self.output).take(length as u64).read_to_end(&mut bytes)?;
        match bytes.len() == length {
            true => Ok(bytes),
            false => Err(ErrorKind::UnexpectedEof.into()),
        }
    }

    /// How it ended.
    fn end(&mut self, error: Error) -> Fault {
        // A program that has ended keeps its own status; another is of no use any more.
        let _ = self.child.kill();
        match self.child.wait() {
            Ok(status) => format!("the program that makes the calls ended: {status}"),
            Err(_) => format!("the program that makes the calls: {error}"),
        }
    }
}
