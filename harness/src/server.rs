//! The static library's calls, asked by its C header, through a process that answers over its standard input and output
//! (`c/server.c`).

use std::io::{self, BufReader, Read, Write};
use std::process::{Child, ChildStdin, ChildStdout, Command, ExitStatus, Stdio};

/// The word that a question begins with, as in `c/server.c`.
const RUN: u64 = 1;

/// The server under test: started at the first question, and anew after one that it gave no answer to.
pub struct Server {
    words: Vec<String>,
    running: Option<Running>,
}

struct Running {
    child: Child,
    to: ChildStdin,
    from: BufReader<ChildStdout>,
}

impl Server {
    /// The command's words are divided by spaces.
    pub fn start(command: &str) -> Server {
        Server {
            words: command.split_whitespace().map(str::to_string).collect(),
            running: None,
        }
    }

    /// Code, place, mark-to-market, naked and cross margin, or why there is no answer; the buffers are lent.
    pub fn run(
        &mut self,
        book: &[u8],
        rows: &mut [i64],
        choice: &mut [u16],
    ) -> Result<[i64; 5], String> {
        self.asked(|running| running.run(book, rows, choice))
    }

    /// A server that gave no answer has ended, or is to: its status says why.
    fn asked<T>(
        &mut self,
        question: impl FnOnce(&mut Running) -> io::Result<T>,
    ) -> Result<T, String> {
        let mut running = match self.running.take() {
            Some(running) => running,
            None => started(&self.words)?,
        };
        match question(&mut running) {
            Ok(answer) => {
                self.running = Some(running);
                Ok(answer)
            }
            Err(why) => Err(match running.ended() {
                Ok(status) => format!("no answer of the server, {why}: {status}"),
                Err(unknown) => format!("no answer of the server, {why}: {unknown}"),
            }),
        }
    }
}

impl Drop for Server {
    fn drop(&mut self) {
        if let Some(running) = self.running.take() {
            let _ = running.ended();
        }
    }
}

fn started(words: &[String]) -> Result<Running, String> {
    let (name, rest) = words.split_first().ok_or("the server has no name")?;
    let start = Command::new(name)
        .args(rest)
        .stdin(Stdio::piped())
        .stdout(Stdio::piped())
        .spawn();
    let mut child = start.map_err(|why| format!("{name} does not start: {why}"))?;
    let to = child.stdin.take().expect("its input is piped");
    let from = BufReader::new(child.stdout.take().expect("its output is piped"));
    Ok(Running { child, to, from })
}

impl Running {
    fn run(&mut self, book: &[u8], rows: &mut [i64], choice: &mut [u16]) -> io::Result<[i64; 5]> {
        self.to.write_all(&question(book, rows, choice))?;
        let mut numbers = [0; 5];
        self.take_numbers(&mut numbers)?;
        self.take_numbers(rows)?;
        self.take_points(choice)?;
        Ok(numbers)
    }

    fn take_numbers(&mut self, numbers: &mut [i64]) -> io::Result<()> {
        for number in numbers {
            *number = i64::from_le_bytes(taken(&mut self.from)?);
        }
        Ok(())
    }

    fn take_points(&mut self, points: &mut [u16]) -> io::Result<()> {
        for point in points {
            *point = u16::from_le_bytes(taken(&mut self.from)?);
        }
        Ok(())
    }

    /// The end of its input ends the server.
    fn ended(self) -> io::Result<ExitStatus> {
        let Running {
            mut child,
            to,
            from,
        } = self;
        drop((to, from));
        child.wait()
    }
}

/// Asks for a run: its word, the three lengths, the book and both buffers as they are lent.
fn question(book: &[u8], rows: &[i64], choice: &[u16]) -> Vec<u8> {
    let words = [
        RUN,
        book.len() as u64,
        rows.len() as u64,
        choice.len() as u64,
    ];
    let mut question: Vec<u8> = words.iter().flat_map(|word| word.to_le_bytes()).collect();
    question.extend(book);
    question.extend(rows.iter().flat_map(|entry| entry.to_le_bytes()));
    question.extend(choice.iter().flat_map(|entry| entry.to_le_bytes()));
    question
}

fn taken<const N: usize>(from: &mut impl Read) -> io::Result<[u8; N]> {
    let mut bytes = [0; N];
    from.read_exact(&mut bytes)?;
    Ok(bytes)
}
