//! `simulator program`, `simulator vectors` and `simulator scripts`.

use simulator::hex;
use simulator::program::{respond, MOST_BYTES};
use simulator::script::Bench;
use std::io::{self, BufRead, BufWriter, Read, Write};
use std::process::ExitCode;

fn main() -> ExitCode {
    let arguments: Vec<String> = std::env::args().skip(1).collect();
    let done = match arguments.iter().map(String::as_str).collect::<Vec<_>>().as_slice() {
        ["program"] => program(),
        ["vectors"] => vectors(),
        ["scripts"] => scripts(),
        _ => Err(io::Error::other("usage: simulator program | vectors | scripts")),
    };
    match done {
        Ok(()) => ExitCode::SUCCESS,
        Err(error) => {
            eprintln!("simulator: {error}");
            ExitCode::FAILURE
        }
    }
}

/// One whole standard input of the program.
fn program() -> io::Result<()> {
    let mut input = Vec::new();
    io::stdin().take(MOST_BYTES as u64).read_to_end(&mut input)?;
    io::stdout().write_all(respond(&input).as_bytes())
}

/// Lines of hexadecimal, each one whole input.
fn vectors() -> io::Result<()> {
    let mut out = BufWriter::new(io::stdout());
    for (index, line) in io::stdin().lock().lines().enumerate() {
        let Some(input) = hex::bytes(&line?) else {
            out.flush()?;
            return Err(io::Error::other(format!("line {} is not hexadecimal", index + 1)));
        };
        out.write_all(respond(&input).as_bytes())?;
    }
    out.flush()
}

/// Scripts of bench calls, one after the other.
fn scripts() -> io::Result<()> {
    let mut out = BufWriter::new(io::stdout());
    let mut bench = Bench::None;
    for (index, line) in io::stdin().lock().lines().enumerate() {
        let Some(answer) = bench.call(&line?) else {
            out.flush()?;
            return Err(io::Error::other(format!("line {} is no script", index + 1)));
        };
        writeln!(out, "{answer}")?;
    }
    out.flush()
}
