//! Input in blocks of any cut, output in blocks.

use crate::session::{Session, LINE_MAX, REPLY_MAX};
use std::io::{self, ErrorKind, Read, Write};

const BLOCK: usize = 64 * 1024;

/// A line longer than this is too long whatever follows, so no more is kept.
const KEPT: usize = LINE_MAX + 1;

/// Replies that wait to be written.
struct Out<W> {
    to: W,
    buf: Box<[u8]>,
    len: usize,
}

impl<W: Write> Out<W> {
    /// Adds a reply, which `write` puts at the front of the room it is given.
    #[inline]
    fn reply(&mut self, write: impl FnOnce(&mut [u8; REPLY_MAX]) -> usize) -> io::Result<()> {
        if self.buf.len() - self.len < REPLY_MAX {
            self.flush()?;
        }
        if let Some(room) = self.buf[self.len..].first_chunk_mut() {
            self.len += write(room);
        }
        Ok(())
    }

    fn flush(&mut self) -> io::Result<()> {
        self.to.write_all(&self.buf[..self.len])?;
        self.len = 0;
        self.to.flush()
    }
}

/// The front of a line that a block left open.
struct Open {
    buf: [u8; KEPT],
    len: usize,
}

impl Open {
    fn add(&mut self, bytes: &[u8]) {
        let n = bytes.len().min(KEPT - self.len);
        self.buf[self.len..self.len + n].copy_from_slice(&bytes[..n]);
        self.len += n;
    }
}

fn line_feed(bytes: &[u8]) -> Option<usize> {
    bytes.iter().position(|&b| b == b'\n')
}

/// Reads the usual line, `I` with a bay of one or two digits and a count of one,
/// without a search for its end; gives bay, count and what follows the line.
#[inline]
fn item(bytes: &[u8]) -> Option<(u32, u32, &[u8])> {
    let (tens, units, count, rest) = match bytes {
        [b'I', b' ', b, b' ', c, b'\n', rest @ ..] => (b'0', *b, *c, rest),
        [b'I', b' ', a, b, b' ', c, b'\n', rest @ ..] => (*a, *b, *c, rest),
        _ => return None,
    };
    if !(tens.is_ascii_digit() && units.is_ascii_digit() && count.is_ascii_digit()) {
        return None;
    }
    let digit = |b: u8| u32::from(b - b'0');
    Some((digit(tens) * 10 + digit(units), digit(count), rest))
}

/// With `tuned`, the usual line has a short cut and numbers come from a table.
pub fn run(mut input: impl Read, output: impl Write, tuned: bool) -> io::Result<()> {
    let mut session = Session::new(tuned);
    let mut out = Out { to: output, buf: vec![0; BLOCK].into_boxed_slice(), len: 0 };
    let mut open = Open { buf: [0; KEPT], len: 0 };
    let mut block = vec![0; BLOCK];
    loop {
        out.flush()?;
        let n = match input.read(&mut block) {
            Ok(0) => break,
            Ok(n) => n,
            Err(e) if e.kind() == ErrorKind::Interrupted => continue,
            Err(e) => return Err(e),
        };
        let mut rest = &block[..n];
        if open.len > 0 {
            let Some(end) = line_feed(rest) else {
                open.add(rest);
                continue;
            };
            open.add(&rest[..end]);
            out.reply(|room| session.answer(&open.buf[..open.len], room))?;
            open.len = 0;
            rest = &rest[end + 1..];
        }
        loop {
            if let Some((bay, count, after)) = tuned.then(|| item(rest)).flatten() {
                out.reply(|room| session.item(bay, count, room))?;
                rest = after;
            } else if let Some(end) = line_feed(rest) {
                out.reply(|room| session.answer(&rest[..end], room))?;
                rest = &rest[end + 1..];
            } else {
                break;
            }
        }
        open.add(rest);
    }
    if open.len > 0 {
        out.reply(|room| session.answer(&open.buf[..open.len], room))?;
    }
    out.flush()
}

#[cfg(test)]
mod tests {
    use super::run;

    fn replies(input: &str) -> String {
        let mut out = Vec::new();
        run(input.as_bytes(), &mut out, true).unwrap();
        String::from_utf8(out).unwrap()
    }

    #[test]
    fn a_single_plan() {
        assert_eq!(
            replies("O 1\nS 2 0\nO 1\nI 1 0\nI 1 0\nI 1 0\nX 1\nR 1"),
            "! 23 T 1 1\nP 2\nO 1\nI 1 1 0 -\nI 1 2 0 A\n! 22 B 1 6\nX 1 2 0 A\n! 21 B 1 8\n"
        );
    }

    #[test]
    fn words() {
        assert_eq!(replies("\n"), "! 12 T 1 1\n");
        assert_eq!(replies("S"), "! 12 T 2 1\n");
        assert_eq!(replies("S 1"), "! 12 T 3 1\n");
        assert_eq!(replies("S 1 2 3"), "! 12 T 4 1\n");
        assert_eq!(replies("S  1 2"), "! 12 T 2 1\n");
        assert_eq!(replies("S 1 2\r"), "! 12 T 3 1\n");
        assert_eq!(replies("S 0 254"), "! 2 N 1 1\n");
        assert_eq!(replies("L 0.931 0.922 .5 65 2"), "! 12 T 4 1\n");
        assert_eq!(replies("L 0.931 0.922 0.0394 65 2"), "P 65\n");
        assert_eq!(replies(""), "");
    }
}
