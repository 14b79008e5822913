//! The second program's evening listing of the book on standard input; a refusal also in words on standard error, and as the
//! exit status 1.

use std::io::{self, Read, Write};
use std::process::ExitCode;

use harness::second;

fn main() -> io::Result<ExitCode> {
    let mut book = Vec::new();
    io::stdin().read_to_end(&mut book)?;
    io::stdout().write_all(second::listing(&book).as_bytes())?;
    let complaint = second::complaint(&book);
    io::stderr().write_all(complaint.as_bytes())?;
    Ok(ExitCode::from(u8::from(!complaint.is_empty())))
}
