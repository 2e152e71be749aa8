//! One session: a plan, 32 bays and the answer to each line.

pub const LINE_MAX: usize = 80;
pub const REPLY_MAX: usize = 96;
pub const BAYS: usize = 32;
pub(crate) const SIZE_MAX: u32 = 4096;
pub(crate) const NUMBER_MAX: u32 = 253;
const LINE_NUMBER_MAX: u32 = 999_999;
const MILLION: i64 = 1_000_000;

/// Acceptance and rejection number.
pub(crate) type Pair = (i16, i16);

/// What a bay holds; the verdict is `EMPTY`, `-`, `A` or `R`.
#[derive(Clone, Copy)]
struct Bay {
    size: u16,
    count: u16,
    verdict: u8,
}

const EMPTY: u8 = 0;
const NO_LOT: Bay = Bay { size: 0, count: 0, verdict: EMPTY };
const NEW_LOT: Bay = Bay { size: 0, count: 0, verdict: b'-' };

#[derive(Clone, Copy, PartialEq, Eq, PartialOrd, Ord)]
enum Turn {
    /// No plan yet.
    Plan,
    /// A plan, and nothing accepted since.
    Cut,
    /// A plan for good.
    Bays,
}

/// Cause, layer and place.
#[derive(Clone, Copy, Debug, PartialEq, Eq)]
pub(crate) struct Refusal(pub(crate) u8, pub(crate) u8, pub(crate) u32);

fn unread(place: u32) -> Refusal {
    Refusal(12, b'T', place)
}

pub struct Session {
    /// The pair for size n is at n - 1; empty before a plan is chosen.
    pairs: Vec<Pair>,
    turn: Turn,
    bays: [Bay; BAYS],
    line: u32,
    /// Whether numbers come from a table of texts.
    tuned: bool,
}

impl Session {
    pub fn new(tuned: bool) -> Self {
        Session { pairs: Vec::new(), turn: Turn::Plan, bays: [NO_LOT; BAYS], line: 0, tuned }
    }

    /// Answers a line without its line feed; gives the length of the reply.
    #[inline]
    pub fn answer(&mut self, line: &[u8], room: &mut [u8; REPLY_MAX]) -> usize {
        self.line = (self.line + 1).min(LINE_NUMBER_MAX);
        let mut reply = Reply { room, len: 0, tuned: self.tuned };
        if let Err(refusal) = self.accept(line, &mut reply) {
            reply.refuse(refusal, self.line);
        }
        reply.len
    }

    /// Answers the line `I bay count`.
    #[inline]
    pub fn item(&mut self, bay: u32, count: u32, room: &mut [u8; REPLY_MAX]) -> usize {
        self.line = (self.line + 1).min(LINE_NUMBER_MAX);
        let mut reply = Reply { room, len: 0, tuned: self.tuned };
        if let Err(refusal) = self.take(bay, count, &mut reply) {
            reply.refuse(refusal, self.line);
        }
        reply.len
    }

    /// Whether a bay is occupied, and whether its lot is decided.
    pub fn bay(&self, bay: usize) -> (bool, bool) {
        let verdict = self.bays[bay].verdict;
        (verdict != EMPTY, verdict == b'A' || verdict == b'R')
    }

    pub fn has_plan(&self) -> bool {
        self.turn != Turn::Plan
    }

    /// The pairs of the plan from size 1 on; none before a plan is chosen.
    pub(crate) fn pairs(&self) -> &[Pair] {
        &self.pairs
    }

    #[inline]
    fn accept(&mut self, line: &[u8], reply: &mut Reply) -> Result<(), Refusal> {
        if line.len() > LINE_MAX {
            return Err(unread(1));
        }
        let (letter, rest) = match line {
            [letter] => (*letter, &line[1..]),
            [letter, b' ', ..] => (*letter, &line[1..]),
            _ => return Err(unread(1)),
        };
        match letter {
            b'I' => {
                let (bay, rest) = whole(rest, 2)?;
                let (count, rest) = whole(rest, 3)?;
                end(rest, 4)?;
                return self.take(bay, count, reply);
            }
            b'O' => {
                let bay = self.bay_line(rest)?;
                let lot = self.named(bay)?;
                if lot.verdict != EMPTY {
                    return Err(Refusal(20, b'B', bay));
                }
                *lot = NEW_LOT;
                reply.number(b'O', bay);
            }
            b'R' => {
                let bay = self.bay_line(rest)?;
                let lot = *self.occupied(bay)?;
                reply.record(b'R', bay, lot);
            }
            b'X' => {
                let bay = self.bay_line(rest)?;
                let lot = std::mem::replace(self.occupied(bay)?, NO_LOT);
                reply.record(b'X', bay, lot);
            }
            b'L' | b'S' | b'C' => {
                let last = self.choose(letter, rest)?;
                reply.number(b'P', last);
                return Ok(());
            }
            _ => return Err(unread(1)),
        }
        self.turn = Turn::Bays;
        Ok(())
    }

    /// Takes an item whose line has been read.
    #[inline]
    fn take(&mut self, bay: u32, count: u32, reply: &mut Reply) -> Result<(), Refusal> {
        self.planned()?;
        let lot = self.bays.get_mut(bay as usize).ok_or(Refusal(1, b'B', bay))?;
        if count > 1 {
            return Err(Refusal(3, b'N', 1));
        }
        match lot.verdict {
            b'-' => {}
            EMPTY => return Err(Refusal(21, b'B', bay)),
            _ => return Err(Refusal(22, b'B', bay)),
        }
        // The lot is live, so its size is below the last one.
        let (ac, re) = self.pairs[lot.size as usize];
        lot.size += 1;
        lot.count += count as u16;
        if lot.count as i16 <= ac {
            lot.verdict = b'A';
        } else if lot.count as i16 >= re {
            lot.verdict = b'R';
        }
        reply.record(b'I', bay, *lot);
        self.turn = Turn::Bays;
        Ok(())
    }

    fn planned(&self) -> Result<(), Refusal> {
        match self.turn {
            Turn::Plan => Err(Refusal(23, b'T', 1)),
            _ => Ok(()),
        }
    }

    /// Reads the words of O, R and X.
    fn bay_line(&self, rest: &[u8]) -> Result<u32, Refusal> {
        let (bay, rest) = whole(rest, 2)?;
        end(rest, 3)?;
        self.planned()?;
        Ok(bay)
    }

    fn named(&mut self, bay: u32) -> Result<&mut Bay, Refusal> {
        self.bays.get_mut(bay as usize).ok_or(Refusal(1, b'B', bay))
    }

    fn occupied(&mut self, bay: u32) -> Result<&mut Bay, Refusal> {
        match self.named(bay)? {
            Bay { verdict: EMPTY, .. } => Err(Refusal(21, b'B', bay)),
            lot => Ok(lot),
        }
    }

    /// Answers L, S and C; gives the last size of the plan.
    #[cold]
    fn choose(&mut self, letter: u8, rest: &[u8]) -> Result<u32, Refusal> {
        let out_of_turn = Refusal(24, b'T', 1);
        if letter == b'L' {
            let (h_a, rest) = decimal(rest, 2)?;
            let (h_r, rest) = decimal(rest, 3)?;
            let (g, rest) = decimal(rest, 4)?;
            let (n_t, rest) = whole(rest, 5)?;
            let (ac_t, rest) = whole(rest, 6)?;
            end(rest, 7)?;
            if self.turn != Turn::Plan {
                return Err(out_of_turn);
            }
            within(1, h_a, 1, 10_000_000)?;
            within(2, h_r, 1, 10_000_000)?;
            within(3, g, 1, 999_999)?;
            within(4, n_t.into(), 1, SIZE_MAX.into())?;
            within(5, ac_t.into(), 0, NUMBER_MAX.into())?;
            self.pairs = line_pairs(h_a as i64, h_r as i64, g as i64, n_t, ac_t);
            self.turn = Turn::Cut;
        } else {
            let (size, rest) = whole(rest, 2)?;
            let (number, rest) = whole(rest, 3)?;
            end(rest, 4)?;
            let turn = if letter == b'S' {
                Turn::Plan
            } else {
                self.planned()?;
                Turn::Cut
            };
            if self.turn != turn {
                return Err(out_of_turn);
            }
            within(1, size.into(), 1, SIZE_MAX.into())?;
            within(2, number.into(), 0, NUMBER_MAX.into())?;
            if letter == b'S' {
                self.pairs = single_pairs(size as usize, number as i16);
                self.turn = Turn::Cut;
            } else {
                cut(&mut self.pairs, size as usize, number as i16);
                self.turn = Turn::Bays;
            }
        }
        Ok(self.pairs.len() as u32)
    }
}

fn within(position: u32, number: u64, least: u64, most: u64) -> Result<(), Refusal> {
    if number < least || number > most {
        return Err(Refusal(2, b'N', position));
    }
    Ok(())
}

pub(crate) fn line_pairs(h_a: i64, h_r: i64, g: i64, n_t: u32, ac_t: u32) -> Vec<Pair> {
    let ac_t = i64::from(ac_t);
    let mut pairs = Vec::with_capacity(n_t as usize);
    for n in 1..i64::from(n_t) {
        let ac = (g * n - h_a).div_euclid(MILLION).clamp(-1, ac_t);
        let re = ((g * n + h_r + MILLION - 1) / MILLION).min(ac_t + 1);
        pairs.push((ac as i16, re as i16));
    }
    pairs.push((ac_t as i16, ac_t as i16 + 1));
    pairs
}

pub(crate) fn single_pairs(size: usize, number: i16) -> Vec<Pair> {
    let mut pairs = vec![(-1, number + 1); size - 1];
    pairs.push((number, number + 1));
    pairs
}

pub(crate) fn cut(pairs: &mut Vec<Pair>, size: usize, number: i16) {
    pairs.truncate(size);
    for (n, pair) in (1..).zip(pairs.iter_mut()) {
        *pair = if n == size {
            (number, number + 1)
        } else {
            (pair.0.min(number), pair.1.min(number + 1))
        };
    }
}

/// The digits at the front, at most `most` of them, and what follows.
#[inline]
fn digits(bytes: &[u8], most: usize) -> Option<(u32, usize, &[u8])> {
    let mut number = 0;
    let mut len = 0;
    for &b in bytes {
        let digit = b.wrapping_sub(b'0');
        if digit > 9 {
            break;
        }
        if len == most {
            return None;
        }
        number = number * 10 + u32::from(digit);
        len += 1;
    }
    if len == 0 {
        return None;
    }
    Some((number, len, &bytes[len..]))
}

/// Each reader takes the rest of a line, which is empty or starts with the
/// space before the next word, and leaves the rest after that word.
#[inline]
fn whole(rest: &[u8], place: u32) -> Result<(u32, &[u8]), Refusal> {
    if let [b' ', word @ ..] = rest {
        if let Some((number, _, rest @ ([] | [b' ', ..]))) = digits(word, 7) {
            return Ok((number, rest));
        }
    }
    Err(unread(place))
}

/// A decimal in millionths.
fn decimal(rest: &[u8], place: u32) -> Result<(u64, &[u8]), Refusal> {
    if let [b' ', word @ ..] = rest {
        if let Some((units, _, rest)) = digits(word, 4) {
            let units = u64::from(units) * MILLION as u64;
            match rest {
                [] | [b' ', ..] => return Ok((units, rest)),
                [b'.', part @ ..] => {
                    if let Some((part, len, rest @ ([] | [b' ', ..]))) = digits(part, 6) {
                        return Ok((units + u64::from(part) * 10u64.pow(6 - len as u32), rest));
                    }
                }
                _ => {}
            }
        }
    }
    Err(unread(place))
}

#[inline]
fn end(rest: &[u8], place: u32) -> Result<(), Refusal> {
    if rest.is_empty() {
        Ok(())
    } else {
        Err(unread(place))
    }
}

/// For each number up to the greatest size: a space, the digits, and at index 7
/// the length of both. All eight bytes are written, and the next text overwrites
/// those after the length.
static SPACED: [[u8; 8]; SIZE_MAX as usize + 1] = {
    let mut table = [[b' ', 0, 0, 0, 0, 0, 0, 0]; SIZE_MAX as usize + 1];
    let mut n = 0;
    while n < table.len() {
        let mut power = 1;
        while power * 10 <= n {
            power *= 10;
        }
        let mut len = 1;
        while power > 0 {
            table[n][len] = b'0' + (n / power % 10) as u8;
            len += 1;
            power /= 10;
        }
        table[n][7] = len as u8;
        n += 1;
    }
    table
};

struct Reply<'a> {
    room: &'a mut [u8; REPLY_MAX],
    len: usize,
    tuned: bool,
}

impl Reply<'_> {
    #[inline]
    fn byte(&mut self, b: u8) {
        self.room[self.len] = b;
        self.len += 1;
    }

    /// A space and a number.
    #[inline]
    fn spaced(&mut self, n: u32) {
        if !self.tuned {
            self.byte(b' ');
            return self.digits(n);
        }
        match SPACED.get(n as usize) {
            Some(text) => {
                self.room[self.len..self.len + 8].copy_from_slice(text);
                self.len += text[7] as usize;
            }
            None => self.spaced_large(n),
        }
    }

    fn digits(&mut self, n: u32) {
        if n >= 10 {
            self.digits(n / 10);
        }
        self.byte(b'0' + (n % 10) as u8);
    }

    #[cold]
    fn spaced_large(&mut self, n: u32) {
        self.spaced(n / 10);
        self.byte(b'0' + (n % 10) as u8);
    }

    fn number(&mut self, letter: u8, n: u32) {
        self.byte(letter);
        self.spaced(n);
        self.byte(b'\n');
    }

    #[inline]
    fn record(&mut self, letter: u8, bay: u32, lot: Bay) {
        self.byte(letter);
        self.spaced(bay);
        self.spaced(lot.size.into());
        self.spaced(lot.count.into());
        self.byte(b' ');
        self.byte(lot.verdict);
        self.byte(b'\n');
    }

    fn refuse(&mut self, Refusal(cause, layer, place): Refusal, line: u32) {
        self.byte(b'!');
        self.spaced(cause.into());
        self.byte(b' ');
        self.byte(layer);
        self.spaced(place);
        self.spaced(line);
        self.byte(b'\n');
    }
}
