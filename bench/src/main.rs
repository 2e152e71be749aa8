//! Plain Rust versions of the `inspect` and `redraw` programs, with generators of
//! input.

mod feed;
mod gen;
mod session;
mod sheet_gen;
mod sheets;
mod simple;

use std::fs::{self, File};
use std::hint::black_box;
use std::io::{self, Read, Write};
use std::num::NonZeroU64;
use std::os::fd::AsFd;
use std::path::Path;
use std::process::ExitCode;

use session::{Refusal, Session, REPLY_MAX};
use sheets::Kind;

const USAGE: &str = "usage: bench answer
       bench plain
       bench simple
       bench sessions SEED N DIR
       bench typical SEED LINES FILE
       bench redraw [N]
       bench sheets SEED N DIR
       bench widest FILE
       bench sheet M PLAN FILE";

fn main() -> ExitCode {
    let args: Vec<String> = std::env::args().skip(1).collect();
    let words: Vec<&str> = args.iter().map(String::as_str).collect();
    let done = match words[..] {
        ["answer"] => answer(|i, o| feed::run(i, o, true)),
        ["plain"] => answer(|i, o| feed::run(i, o, false)),
        ["simple"] => answer(simple::run),
        ["sessions", seed, n, dir] => match (seed.parse(), n.parse()) {
            (Ok(seed), Ok(n)) => gen::sessions(seed, n, Path::new(dir)),
            _ => return usage(),
        },
        ["typical", seed, lines, file] => match (seed.parse(), lines.parse()) {
            (Ok(seed), Ok(lines)) => gen::typical(seed, lines, Path::new(file)),
            _ => return usage(),
        },
        ["redraw"] => answer(|i, o| redraw(i, o, 1)),
        ["redraw", n] => match n.parse::<NonZeroU64>() {
            Ok(n) => answer(|i, o| redraw(i, o, n.get())),
            Err(_) => return usage(),
        },
        ["sheets", seed, n, dir] => match (seed.parse(), n.parse()) {
            (Ok(seed), Ok(n)) => sheet_gen::sheets(seed, n, Path::new(dir)),
            _ => return usage(),
        },
        ["widest", file] => sheet_gen::widest(Path::new(file)),
        ["sheet", m, plan, file] => match m.parse().ok().and_then(Kind::with_greatest) {
            Some(kind) => write_sheet(kind, plan, Path::new(file)),
            None => return usage(),
        },
        _ => return usage(),
    };
    match done {
        Ok(()) => ExitCode::SUCCESS,
        Err(e) => {
            // Standard error may be closed; the status still tells.
            let _ = writeln!(io::stderr(), "bench: {e}");
            ExitCode::from(1)
        }
    }
}

fn usage() -> ExitCode {
    eprintln!("{USAGE}");
    ExitCode::from(2)
}

/// Answers standard input. Plain files are used because the standard handles
/// take a bad descriptor for the end of the input or for a successful write.
fn answer(run: impl FnOnce(File, File) -> io::Result<()>) -> io::Result<()> {
    let input = File::from(io::stdin().as_fd().try_clone_to_owned()?);
    let output = File::from(io::stdout().as_fd().try_clone_to_owned()?);
    run(input, output)
}

/// Loads a sheet and draws the loaded table `n` times, at least once.
fn redraw(mut input: File, mut output: File, n: u64) -> io::Result<()> {
    let mut bytes = Vec::new();
    input.read_to_end(&mut bytes)?;
    let kind = Kind::of_bytes(&bytes);
    let pairs = match sheets::load(&bytes, kind) {
        Ok(pairs) => pairs,
        Err(Refusal(cause, layer, place)) => {
            let line = format!("! {cause} {} {place}\n", char::from(layer));
            return output.write_all(line.as_bytes());
        }
    };
    let mut room = [0; sheets::SHEET_MAX];
    let mut len = 0;
    for _ in 0..n {
        // Without the black boxes, all drawings but one might be left out.
        len = sheets::draw(black_box(&pairs), kind, black_box(&mut room))
            .expect("the room holds the longest sheet");
        black_box(&room);
    }
    output.write_all(&room[..len])
}

/// Writes the sheet of a plan that is given as the line of a session.
fn write_sheet(kind: Kind, plan: &str, file: &Path) -> io::Result<()> {
    let mut session = Session::new(false);
    session.answer(plan.as_bytes(), &mut [0; REPLY_MAX]);
    if !session.has_plan() {
        return Err(io::Error::other("no such plan"));
    }
    fs::write(file, sheets::sheet(session.pairs(), kind))
}
