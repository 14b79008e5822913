//! The comparison of the listing program under test with the second program's listing.

use std::io::Write;
use std::process::{Command, Stdio};
use std::thread;

use crate::books::Case;
use crate::compare::{Found, Verdict};
use crate::second;

/// What a listing program printed, on standard output and on standard error.
pub struct Printed {
    pub text: Vec<u8>,
    pub complaint: Vec<u8>,
}

/// A judge that asks a listing program, which has the book alone.
pub fn by_listing(
    mut program: impl FnMut(&[u8]) -> Result<Printed, String>,
) -> impl FnMut(&Case) -> Verdict {
    move |case| {
        let printed = program(&case.book).map_err(|why| ("program", why))?;
        check(&case.book, &printed)?;
        let code = second::run(&case.book, usize::MAX, usize::MAX).code;
        Ok((code, false))
    }
}

/// Compares what was printed, byte for byte.
pub fn check(book: &[u8], printed: &Printed) -> Result<(), Found> {
    let text = same("text", &second::listing(book), &printed.text);
    text.map_err(|(what, detail)| {
        // Standard error may say why.
        let complaint = String::from_utf8_lossy(&printed.complaint);
        (what, format!("{detail}\nits standard error:\n{complaint}"))
    })?;
    same("complaint", &second::complaint(book), &printed.complaint)
}

fn same(what: &'static str, wanted: &str, found: &[u8]) -> Result<(), Found> {
    if found == wanted.as_bytes() {
        return Ok(());
    }
    let found = String::from_utf8_lossy(found);
    Err((what, format!("second:\n{wanted}\nunder test:\n{found}")))
}

/// Runs a listing program, given by its words, with the book on standard input.
pub fn child(words: &[&str], book: &[u8]) -> Result<Printed, String> {
    let start = Command::new(words[0])
        .args(&words[1..])
        .stdin(Stdio::piped())
        .stdout(Stdio::piped())
        .stderr(Stdio::piped())
        .spawn();
    let mut child = start.map_err(|why| format!("{} does not start: {why}", words[0]))?;
    let input = child.stdin.take();
    // A thread writes while both outputs are read, so that no full pipe holds up another.
    let output = thread::scope(|scope| {
        scope.spawn(move || {
            // A program that stops reading early is judged by what it prints.
            input.map(|mut input| input.write_all(book))
        });
        child.wait_with_output()
    });
    let output = output.map_err(|why| format!("{}: {why}", words[0]))?;
    match output.status.code() {
        Some(_) => Ok(Printed {
            text: output.stdout,
            complaint: output.stderr,
        }),
        None => Err(format!(
            "{} was ended by a signal: {}",
            words[0], output.status
        )),
    }
}
