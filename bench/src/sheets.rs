//! Acceptability sheets: how a plan rules on the counts that items can reach.

use crate::session::{Pair, Refusal, NUMBER_MAX, SIZE_MAX};

const LETTERS: &[u8; 3] = b"SQA";
const VERSION: u16 = 1;
const HEAD: usize = 8;
const MISSING: u8 = 255;
/// The greatest rejection number of a plan.
const RE_MAX: i16 = NUMBER_MAX as i16 + 1;
/// The length of the longest sheet.
pub const SHEET_MAX: usize = HEAD + 2 * SIZE_MAX as usize;

/// A kind of item.
#[derive(Clone, Copy, Debug, PartialEq, Eq)]
pub enum Kind {
    Mark,
    FaultNumber,
}

impl Kind {
    /// The greatest count of an item.
    pub fn greatest(self) -> u8 {
        match self {
            Kind::Mark => 1,
            Kind::FaultNumber => 15,
        }
    }

    pub fn with_greatest(greatest: u8) -> Option<Kind> {
        [Kind::Mark, Kind::FaultNumber].into_iter().find(|kind| kind.greatest() == greatest)
    }

    /// The kind that bytes are most likely a sheet for.
    pub fn of_bytes(bytes: &[u8]) -> Kind {
        bytes.get(5).and_then(|&m| Kind::with_greatest(m)).unwrap_or(Kind::Mark)
    }
}

/// Counts from the lowest to the highest, both among them.
#[derive(Clone, Copy)]
struct Span {
    low: i16,
    high: i16,
}

impl Span {
    /// The counts reached at size 1.
    fn first(kind: Kind) -> Span {
        Span { low: 0, high: kind.greatest().into() }
    }

    /// The counts reached one item after these, all of them live.
    fn next(self, kind: Kind) -> Span {
        Span { low: self.low, high: self.high + i16::from(kind.greatest()) }
    }

    /// The live ones, if there are any.
    fn live(self, (ac, re): Pair) -> Option<Span> {
        let live = Span { low: self.low.max(ac + 1), high: self.high.min(re - 1) };
        (live.low <= live.high).then_some(live)
    }

    fn contains(self, count: i16) -> bool {
        self.low <= count && count <= self.high
    }

    fn points(self) -> usize {
        (self.high - self.low + 1) as usize
    }

    /// The two bytes of a row. Both numbers fit in a byte: an accepted count is
    /// at most 253, and the first rejected one at most 254.
    fn row(self, (ac, re): Pair) -> [u8; 2] {
        let accepted = if ac >= self.low { ac.min(self.high) as u8 } else { MISSING };
        let rejected = if re <= self.high { re.max(self.low) as u8 } else { MISSING };
        [accepted, rejected]
    }
}

/// The rows of a plan's sheet: the reached counts and the pair of each.
struct Rows<'a> {
    pairs: std::slice::Iter<'a, Pair>,
    kind: Kind,
    /// The counts reached at the next size, none after the sheet's last row.
    reached: Option<Span>,
}

fn rows(pairs: &[Pair], kind: Kind) -> Rows<'_> {
    Rows { pairs: pairs.iter(), kind, reached: Some(Span::first(kind)) }
}

impl Iterator for Rows<'_> {
    type Item = (Span, Pair);

    #[inline]
    fn next(&mut self) -> Option<(Span, Pair)> {
        let reached = self.reached?;
        let pair = *self.pairs.next()?;
        self.reached = reached.live(pair).map(|live| live.next(self.kind));
        Some((reached, pair))
    }
}

/// The rows and the points of a plan's sheet.
pub fn extent(pairs: &[Pair], kind: Kind) -> (usize, usize) {
    rows(pairs, kind).fold((0, 0), |(n, points), (reached, _)| (n + 1, points + reached.points()))
}

/// Writes a plan's sheet at the front of `room` and gives its length. Room that
/// is too short is left as it was.
pub fn draw(pairs: &[Pair], kind: Kind, room: &mut [u8]) -> Result<usize, Refusal> {
    if room.len() < HEAD + 2 * pairs.len() {
        // The sheet may still fit, as it can end before the plan's last size.
        let needed = HEAD + 2 * extent(pairs, kind).0;
        if room.len() < needed {
            return Err(Refusal(13, b'M', needed as u32));
        }
    }
    let (head, body) = room.split_at_mut(HEAD);
    let mut s = 0u16;
    for ((reached, pair), to) in rows(pairs, kind).zip(body.chunks_exact_mut(2)) {
        to.copy_from_slice(&reached.row(pair));
        s += 1;
    }
    head[..3].copy_from_slice(LETTERS);
    head[3..5].copy_from_slice(&VERSION.to_le_bytes());
    head[5] = kind.greatest();
    head[6..].copy_from_slice(&s.to_le_bytes());
    Ok(HEAD + 2 * usize::from(s))
}

/// A plan's sheet by itself.
pub fn sheet(pairs: &[Pair], kind: Kind) -> Vec<u8> {
    let mut bytes = vec![0; HEAD + 2 * extent(pairs, kind).0];
    draw(pairs, kind, &mut bytes).expect("the room is as long as the sheet");
    bytes
}

/// A row as it is read.
#[derive(Clone, Copy)]
struct Row {
    ac: Option<i16>,
    re: Option<i16>,
}

impl Row {
    fn read(bytes: &[u8]) -> Row {
        let number = |byte| (byte != MISSING).then_some(i16::from(byte));
        Row { ac: number(bytes[0]), re: number(bytes[1]) }
    }

    /// The live counts among the reached ones; a missing number bounds nothing.
    fn live(self, reached: Span) -> Option<Span> {
        reached.live((self.ac.unwrap_or(-1), self.re.unwrap_or(i16::MAX)))
    }

    fn is_lawful(self, reached: Span, last: bool) -> bool {
        let live = self.live(reached);
        let known = |number: Option<i16>| number.is_none_or(|n| reached.contains(n));
        let ordered = match (self.ac, self.re) {
            (Some(ac), Some(re)) => ac < re,
            _ => true,
        };
        known(self.ac)
            && known(self.re)
            && self.ac.is_none_or(|ac| ac < RE_MAX)
            && ordered
            && live.is_none_or(|live| live.high < RE_MAX)
            && live.is_none() == last
    }

    /// The pair that a lawful row stands for.
    fn pair(self, last: bool) -> Pair {
        match (self.ac, self.re) {
            (Some(ac), None) if last => (ac, ac + 1),
            (None, Some(re)) if last => (re - 1, re),
            (ac, re) => (ac.unwrap_or(-1), re.unwrap_or(RE_MAX)),
        }
    }
}

/// Tests all but the rows and gives the bytes of the rows.
fn body(bytes: &[u8], kind: Kind) -> Result<&[u8], Refusal> {
    let refuse = |cause| Err(Refusal(cause, b'H', 0));
    let Some((head, body)) = bytes.split_at_checked(HEAD) else {
        return refuse(4);
    };
    let s = usize::from(u16::from_le_bytes([head[6], head[7]]));
    if &head[..3] != LETTERS {
        refuse(5)
    } else if u16::from_le_bytes([head[3], head[4]]) != VERSION {
        refuse(6)
    } else if head[5] != kind.greatest() {
        refuse(7)
    } else if !(1..=SIZE_MAX as usize).contains(&s) || body.len() != 2 * s {
        refuse(8)
    } else {
        Ok(body)
    }
}

/// Reads a sheet as a table: the plan with the pairs that its rows stand for.
pub fn load(bytes: &[u8], kind: Kind) -> Result<Vec<Pair>, Refusal> {
    let body = body(bytes, kind)?;
    let s = body.len() / 2;
    let mut pairs = Vec::with_capacity(s);
    let mut reached = Span::first(kind);
    for (n, bytes) in (1..).zip(body.chunks_exact(2)) {
        let (row, last) = (Row::read(bytes), n == s);
        if !row.is_lawful(reached, last) {
            return Err(Refusal(9, b'H', n as u32));
        }
        pairs.push(row.pair(last));
        if let Some(live) = row.live(reached) {
            reached = live.next(kind);
        }
    }
    Ok(pairs)
}

#[cfg(test)]
mod tests {
    use super::Kind::{FaultNumber, Mark};
    use super::*;
    use crate::session::{cut, line_pairs, single_pairs};

    const F: u8 = MISSING;

    /// Bytes with a good header and these rows.
    fn with_rows(kind: Kind, rows: &[[u8; 2]]) -> Vec<u8> {
        let [low, high] = (rows.len() as u16).to_le_bytes();
        let mut bytes = vec![b'S', b'Q', b'A', 1, 0, kind.greatest(), low, high];
        bytes.extend(rows.iter().flatten());
        bytes
    }

    fn refused(bytes: &[u8], kind: Kind) -> (u8, u8, u32) {
        let Refusal(cause, layer, place) = load(bytes, kind).unwrap_err();
        (cause, layer, place)
    }

    #[test]
    fn the_ten_percent_line() {
        let plan = line_pairs(931_000, 922_000, 39_400, 65, 2);
        assert_eq!(extent(&plan, Mark), (65, 174));
        let mut rows = vec![[F, 1], [F, F]];
        rows.extend([[F, 2]; 21]);
        rows.push([0, 2]);
        rows.extend([[F, 2]; 3]);
        rows.push([F, F]);
        rows.extend([[F, 3]; 21]);
        rows.push([1, 3]);
        rows.extend([[F, 3]; 14]);
        rows.push([2, 3]);
        assert_eq!(rows.len(), 65);
        assert_eq!(sheet(&plan, Mark), with_rows(Mark, &rows));
    }

    #[test]
    fn single_2_0() {
        let bytes = [0x53, 0x51, 0x41, 1, 0, 1, 2, 0, 0xFF, 1, 0, 1];
        assert_eq!(sheet(&single_pairs(2, 0), Mark), bytes);
        assert_eq!(load(&bytes, Mark), Ok(vec![(-1, 1), (0, 1)]));
    }

    #[test]
    fn singles_that_rule_alike() {
        let (five, three) = (single_pairs(3, 5), single_pairs(3, 3));
        assert_eq!(sheet(&five, Mark), sheet(&three, Mark));
        assert_ne!(sheet(&five, FaultNumber), sheet(&three, FaultNumber));
    }

    #[test]
    fn refusals_in_their_order() {
        let good = sheet(&single_pairs(2, 0), Mark);
        let at_head = |cause| (cause, b'H', 0);
        for len in 0..8 {
            assert_eq!(refused(&good[..len], Mark), at_head(4));
        }
        assert_eq!(refused(&good, FaultNumber), at_head(7));
        assert_eq!(refused(&good[..8], Mark), at_head(8));
        assert_eq!(refused(&good[..11], Mark), at_head(8));
        assert_eq!(refused(&[&good[..], &[0]].concat(), Mark), at_head(8));
        // Each spoiled byte hides those spoiled before it.
        let mut bytes = good;
        for (at, cause) in [(9, 9), (7, 8), (6, 8), (5, 7), (4, 6), (3, 6), (2, 5), (0, 5)] {
            bytes[at] = 77;
            assert_eq!(refused(&bytes, Mark).0, cause, "byte {at}");
        }
        for n in [0, 4097] {
            let rows = vec![[F, F]; n];
            assert_eq!(refused(&with_rows(FaultNumber, &rows), FaultNumber), at_head(8));
        }
    }

    #[test]
    fn unlawful_rows() {
        let at = |n| (9, b'H', n);
        let marks = |rows: &[[u8; 2]]| refused(&with_rows(Mark, rows), Mark);
        // Not a reached count.
        assert_eq!(marks(&[[0, 2]]), at(1));
        assert_eq!(marks(&[[F, 1], [1, 2]]), at(2));
        assert_eq!(marks(&[[2, F]]), at(1));
        assert_eq!(marks(&[[0, F], [0, 1]]), at(2));
        // The rejection number not the greater.
        assert_eq!(marks(&[[1, 1]]), at(1));
        assert_eq!(marks(&[[1, 0]]), at(1));
        // A last row with a live count, and another without one.
        assert_eq!(marks(&[[F, 1]]), at(1));
        assert_eq!(marks(&[[F, F]]), at(1));
        assert_eq!(marks(&[[0, 1], [0, 1]]), at(1));
    }

    #[test]
    fn the_highest_counts() {
        // After 17 fault numbers, counts up to 255 are reached.
        let mut rows = vec![[F, F]; 16];
        rows.extend([[F, 254], [253, 254]]);
        let bytes = with_rows(FaultNumber, &rows);
        assert_eq!(sheet(&load(&bytes, FaultNumber).unwrap(), FaultNumber), bytes);
        // A live count above 253, and an acceptance number above it.
        rows[16] = [F, F];
        assert_eq!(refused(&with_rows(FaultNumber, &rows), FaultNumber), (9, b'H', 17));
        rows[16] = [254, F];
        assert_eq!(refused(&with_rows(FaultNumber, &rows), FaultNumber), (9, b'H', 17));
    }

    #[test]
    fn missing_numbers_when_loaded() {
        let bytes = with_rows(Mark, &[[F, F], [0, F], [F, 2], [F, 1]]);
        let plan = load(&bytes, Mark);
        assert_eq!(plan, Ok(vec![(-1, 254), (0, 254), (-1, 2), (0, 1)]));
        assert_eq!(sheet(&plan.unwrap(), Mark), bytes);
        assert_eq!(load(&with_rows(Mark, &[[1, F]]), Mark), Ok(vec![(1, 2)]));
        assert_eq!(load(&with_rows(Mark, &[[F, 0]]), Mark), Ok(vec![(-1, 0)]));
    }

    #[test]
    fn short_room_is_left_as_it_was() {
        // Three marks end this plan, although its last size is 4.
        let mut plan = single_pairs(10, 5);
        cut(&mut plan, 3, 2);
        plan.push((9, 10));
        for len in 0..14 {
            let mut room = vec![7; len];
            assert_eq!(draw(&plan, Mark, &mut room), Err(Refusal(13, b'M', 14)));
            assert!(room.iter().all(|&byte| byte == 7));
        }
        let mut room = [7; 15];
        assert_eq!(draw(&plan, Mark, &mut room), Ok(14));
        assert_eq!((&room[..14], room[14]), (&sheet(&plan, Mark)[..], 7));
    }
}
