//! Sessions made from a fixed seed.

use crate::session::{Session, BAYS, REPLY_MAX};
use std::fs::{self, File};
use std::io::{self, BufWriter, Write};
use std::path::Path;

const CARRIED: [&str; 13] = [
    "3.181 4.255 0.0143 1801 25",
    "2.434 3.077 0.0163 906 14",
    "1.871 2.430 0.0184 536 9",
    "1.581 1.851 0.0215 311 6",
    "1.389 1.591 0.0251 189 4",
    "1.181 1.308 0.0288 127 3",
    "1.058 1.046 0.0341 77 2",
    "0.931 0.922 0.0394 65 2",
    "0.850 0.940 0.0466 37 1",
    "0.721 0.779 0.0554 30 1",
    "0.659 0.672 0.0658 22 1",
    "0.700 0.650 0.0794 15 1",
    "0.580 0.500 0.0965 11 1",
];

/// SplitMix64.
pub(crate) struct Random(pub(crate) u64);

impl Random {
    pub(crate) fn next(&mut self) -> u64 {
        self.0 = self.0.wrapping_add(0x9E37_79B9_7F4A_7C15);
        let mut z = self.0;
        z = (z ^ (z >> 30)).wrapping_mul(0xBF58_476D_1CE4_E5B9);
        z = (z ^ (z >> 27)).wrapping_mul(0x94D0_49BB_1331_11EB);
        z ^ (z >> 31)
    }

    /// A number below `n`, which is not 0.
    pub(crate) fn below(&mut self, n: u64) -> u64 {
        self.next() % n
    }

    pub(crate) fn from(&mut self, least: u64, most: u64) -> u64 {
        least + self.below(most - least + 1)
    }

    pub(crate) fn percent(&mut self, p: u64) -> bool {
        self.below(100) < p
    }

    pub(crate) fn pick<T: Copy>(&mut self, of: &[T]) -> T {
        of[self.below(of.len() as u64) as usize]
    }
}

/// A session in the making; `model` follows it to know what would be accepted.
pub(crate) struct Maker {
    pub(crate) random: Random,
    pub(crate) model: Session,
    text: Vec<u8>,
}

impl Maker {
    pub(crate) fn new(seed: u64) -> Self {
        Maker { random: Random(seed), model: Session::new(true), text: Vec::new() }
    }

    /// Writes a line; a line feed inside makes it several.
    pub(crate) fn line(&mut self, line: &[u8]) {
        for part in line.split(|&b| b == b'\n') {
            self.model.answer(part, &mut [0; REPLY_MAX]);
        }
        self.text.extend_from_slice(line);
        self.text.push(b'\n');
    }

    fn whole(&mut self, n: u64) -> String {
        match self.random.below(12) {
            0 => format!("0{n}"),
            1 => format!("{n:07}"),
            _ => n.to_string(),
        }
    }

    /// Millionths as text with as few places as they need, or more zeros.
    fn decimal(&mut self, millionths: u64) -> String {
        let (units, part) = (millionths / 1_000_000, millionths % 1_000_000);
        let mut places = format!("{part:06}");
        while places.ends_with('0') && !self.random.percent(20) {
            places.pop();
        }
        let units = match self.random.below(12) {
            0 => format!("{units:04}"),
            1 => format!("0{units}"),
            _ => units.to_string(),
        };
        if places.is_empty() { units } else { format!("{units}.{places}") }
    }

    pub(crate) fn size(&mut self) -> u64 {
        match self.random.below(8) {
            0 => self.random.pick(&[1, 2, 3, 4095, 4096]),
            1 => self.random.from(1, 4096),
            2 | 3 => self.random.from(1, 300),
            _ => self.random.from(1, 40),
        }
    }

    pub(crate) fn cut_number(&mut self) -> u64 {
        match self.random.below(6) {
            0 => self.random.pick(&[0, 1, 252, 253]),
            1 => self.random.from(0, 253),
            _ => self.random.from(0, 6),
        }
    }

    pub(crate) fn intercept(&mut self) -> u64 {
        match self.random.below(6) {
            0 => self.random.pick(&[1, 2, 999_999, 1_000_000, 1_000_001, 9_999_999, 10_000_000]),
            1 => self.random.from(1, 10_000_000),
            2 => self.random.from(1, 10) * 1_000_000,
            3 => self.random.from(1, 100) * 100_000,
            _ => self.random.from(1, 3_000_000),
        }
    }

    fn slope(&mut self) -> u64 {
        match self.random.below(6) {
            0 => self.random.pick(&[1, 2, 500_000, 999_998, 999_999]),
            1 => self.random.from(1, 999_999),
            2 => self.random.pick(&[500_000, 250_000, 125_000, 200_000, 100_000, 50_000]),
            _ => self.random.from(1, 100_000),
        }
    }

    pub(crate) fn plan(&mut self) -> String {
        match self.random.below(5) {
            0 | 1 => format!("L {}", self.random.pick(&CARRIED)),
            2 | 3 => {
                let (h_a, h_r, g) = (self.intercept(), self.intercept(), self.slope());
                let (n_t, ac_t) = (self.size(), self.cut_number());
                let (h_a, h_r, g) = (self.decimal(h_a), self.decimal(h_r), self.decimal(g));
                format!("L {h_a} {h_r} {g} {} {}", self.whole(n_t), self.whole(ac_t))
            }
            _ => {
                let (n, a) = (self.size(), self.cut_number());
                format!("S {} {}", self.whole(n), self.whole(a))
            }
        }
    }

    /// A plan or cut that reads, with some numbers at or just past a limit.
    fn limits(&mut self) -> String {
        let mut words: Vec<String> = match self.random.below(3) {
            0 => self.cut(),
            _ => self.plan(),
        }
        .split(' ')
        .map(String::from)
        .collect();
        let decimals = if words[0] == "L" { 3 } else { 0 };
        for (at, word) in words.iter_mut().enumerate().skip(1) {
            if !self.random.percent(35) {
                continue;
            }
            *word = if at <= decimals {
                let n = self.random.pick(&[
                    0, 1, 999_999, 1_000_000, 1_000_001, 9_999_999, 10_000_000, 10_000_001,
                    4_294_967_296, 4_294_967_297, 9_999_999_999,
                ]);
                self.decimal(n)
            } else {
                let n = self.random.pick(&[
                    0, 1, 2, 252, 253, 254, 255, 256, 257, 4095, 4096, 4097, 65_536, 65_537,
                    9_999_999,
                ]);
                self.whole(n)
            };
        }
        words.join(" ")
    }

    fn cut(&mut self) -> String {
        let (c, a) = (self.size(), self.cut_number());
        format!("C {} {}", self.whole(c), self.whole(a))
    }

    /// A line that the stand accepts, `bad` in a hundred items being
    /// nonconforming and only the first `bays` bays being used.
    fn call(&mut self, bays: usize, bad: u64) -> String {
        let bay = self.random.below(bays as u64);
        let (occupied, decided) = self.model.bay(bay as usize);
        let text = self.whole(bay);
        if !occupied {
            return format!("O {text}");
        }
        match self.random.below(40) {
            0 => format!("X {text}"),
            1 | 2 => format!("R {text}"),
            _ if decided => format!("X {text}"),
            _ => {
                let count = u64::from(self.random.percent(bad));
                format!("I {text} {}", self.whole(count))
            }
        }
    }

    /// A number of an odd shape: at or past a limit, or not a number.
    fn odd_word(&mut self) -> Vec<u8> {
        const WORDS: [&str; 62] = [
            "", "0", "1", "2", "00", "01", "31", "32", "33", "031", "0000031", "00000031", "253",
            "254", "255", "256", "4095", "4096", "4097", "65535", "65536", "65537", "99999",
            "999999", "1000000", "9999999", "09999999", "10000000", "12345678", "4294967296",
            "4294967297", "18446744073709551617", "+1", "-1", "-0", "1e1", "0x1", "1_0", "1,0",
            ".", "1.", ".1", "1.1.1", "1..1", "0.0", "0.000000", "0.000001", "0.0000001",
            "0.999999", "1.000000", "1.0000000", "9.999999", "10", "10.000000", "10.000001",
            "9999", "9999.999999", "10000", "00001.5", "A", "\u{e9}", "\u{663}",
        ];
        match self.random.below(6) {
            0 => {
                let n = self.random.below(10_000_000_000);
                n.to_string().into_bytes()
            }
            1 => {
                let units = self.random.below(12);
                let places = self.random.from(0, 8);
                let mut word = format!("{units}");
                if places > 0 || self.random.percent(30) {
                    word.push('.');
                }
                for _ in 0..places {
                    word.push(char::from(b'0' + self.random.below(10) as u8));
                }
                word.into_bytes()
            }
            2 => {
                let len = self.random.from(1, 9);
                (0..len).map(|_| self.random.next() as u8).collect()
            }
            _ => self.random.pick(&WORDS).as_bytes().to_vec(),
        }
    }

    /// Any line, right or wrong in its turn.
    fn any(&mut self, bays: usize, bad: u64) -> String {
        match self.random.below(10) {
            0 => match self.random.below(3) {
                0 => self.plan(),
                1 => self.cut(),
                _ => self.limits(),
            },
            1 => {
                // An item for a bay in use, decided or not.
                let (bay, count) = (self.random.below(bays as u64), self.random.below(2));
                format!("I {bay} {count}")
            }
            2 => {
                let bay = self.random.below(BAYS as u64 + 2);
                format!("{} {bay}", self.random.pick(&['O', 'R', 'X']))
            }
            3 => {
                let (bay, count) = (self.random.below(34), self.random.below(3));
                format!("I {bay} {count}")
            }
            _ if !self.model.has_plan() => self.plan(),
            _ => self.call(bays, bad),
        }
    }

    /// A line that is likely refused, to stand before or soon after the plan.
    fn early(&mut self, bays: usize, bad: u64) {
        let line = match self.random.below(8) {
            0..=3 => self.limits(),
            4 => {
                let bay = self.random.below(40);
                format!("{} {bay}", self.random.pick(&['R', 'X', 'O', 'C']))
            }
            5 => {
                let (bay, count) = (self.random.below(40), self.random.below(3));
                format!("I {bay} {count}")
            }
            6 => self.cut(),
            _ => {
                let line = self.any(bays, bad);
                let line = self.spoil(line);
                return self.line(&line);
            }
        };
        self.line(line.as_bytes());
    }

    /// Spoils a line in one way.
    fn spoil(&mut self, line: String) -> Vec<u8> {
        let mut line = line.into_bytes();
        let mut words: Vec<Vec<u8>> = line.split(|&b| b == b' ').map(<[u8]>::to_vec).collect();
        let at = self.random.below(words.len() as u64) as usize;
        match self.random.below(16) {
            0 => drop(words.remove(at)),
            1 => words.insert(at, words[at].clone()),
            2..=5 => words[at] = self.odd_word(),
            6 => words.insert(at, Vec::new()),
            7 => words.push(Vec::new()),
            8 => {
                let word = self.odd_word();
                words.push(word);
            }
            9 => words.truncate(at),
            10 => words[0] = vec![self.random.pick(b"LSCOIRXlscoirxP!AaZ0 \t\0\xff")],
            11 => {
                line.push(self.random.pick(b"\r\r\r\t\0\x0b "));
                return line;
            }
            12 => {
                let i = self.random.below(line.len() as u64) as usize;
                line[i] = self.random.next() as u8;
                return line;
            }
            13 => {
                let i = self.random.below(line.len() as u64 + 1) as usize;
                line.insert(i, self.random.pick(b"  \t\r\0\n\xc3\xff.0-+"));
                return line;
            }
            14 => return self.long(line),
            _ => {
                let mut at = 0;
                while at < words.len() {
                    if self.random.percent(40) {
                        words[at] = self.odd_word();
                    }
                    at += 1;
                }
            }
        }
        words.join(&b' ')
    }

    /// A line of 79 to 200 bytes, or now and then much longer.
    fn long(&mut self, mut line: Vec<u8>) -> Vec<u8> {
        let len = match self.random.below(40) {
            0 => self.random.from(201, 5000),
            1..=20 => self.random.from(79, 82),
            _ => self.random.from(79, 200),
        } as usize;
        match self.random.below(4) {
            0 => line.resize(len, b' '),
            1 => line.resize(len, b'0'),
            2 => {
                while line.len() < len {
                    line.push(b' ');
                    let word = self.odd_word();
                    line.extend(word);
                }
                line.truncate(len);
            }
            _ => {
                while line.len() < len {
                    line.push(self.random.next() as u8);
                }
            }
        }
        line
    }

    /// Random bytes, some of them weighted so that short lines come about.
    fn noise(&mut self, len: u64) -> Vec<u8> {
        let plain = self.random.percent(30);
        (0..len)
            .map(|_| {
                if plain || self.random.percent(10) {
                    self.random.next() as u8
                } else {
                    self.random.pick(b"LSCOIRX  0123456789.\n\n\r\0\xff\xc3")
                }
            })
            .collect()
    }
}

/// One session of bytes.
fn session(seed: u64) -> Vec<u8> {
    let mut m = Maker::new(seed);
    let kind = m.random.below(100);
    if kind < 5 {
        let len = m.random.below(600);
        return m.noise(len);
    }
    let spoiled = match kind {
        5..=34 => 0,
        35..=59 => m.random.from(1, 15),
        60..=84 => m.random.from(15, 60),
        _ => m.random.from(5, 30),
    };
    let noisy = kind >= 85;
    let lines = match m.random.below(400) {
        0 => m.random.from(8_000, 20_000),
        1..=40 => m.random.from(1_000, 5_000),
        41..=120 => m.random.from(100, 600),
        _ => m.random.from(1, 80),
    };
    let bays = m.random.pick(&[1, 1, 2, 3, 8, 32, 32]);
    // Half of the sessions have items near the slope, where lots stay live.
    let bad = if m.random.percent(50) { m.random.below(8) } else { m.random.below(101) };
    // Lines before the plan, and between the plan and the cut.
    let early = if spoiled > 0 && m.random.percent(60) { m.random.from(1, 6) } else { 0 };
    for _ in 0..early {
        if m.model.has_plan() {
            break;
        }
        m.early(bays, bad);
    }
    if !m.random.percent(5) {
        let plan = m.plan();
        m.line(plan.as_bytes());
        for _ in 0..early / 2 {
            m.early(bays, bad);
        }
        if m.random.percent(35) {
            let cut = m.cut();
            m.line(cut.as_bytes());
        }
    }
    for _ in 0..lines {
        if spoiled == 0 {
            let line = if m.model.has_plan() { m.call(bays, bad) } else { m.plan() };
            m.line(line.as_bytes());
        } else if m.random.percent(spoiled) {
            let line = m.any(bays, bad);
            let line = if m.random.percent(70) { m.spoil(line) } else { line.into_bytes() };
            m.line(&line);
        } else if noisy && m.random.percent(20) {
            let len = m.random.below(60);
            let noise = m.noise(len);
            m.line(&noise);
        } else {
            let line = if m.model.has_plan() { m.call(bays, bad) } else { m.any(bays, bad) };
            m.line(line.as_bytes());
        }
    }
    if m.random.percent(30) {
        m.text.pop();
    }
    m.text
}

/// Writes `n` sessions to `dir`, named by their numbers.
pub fn sessions(seed: u64, n: u64, dir: &Path) -> io::Result<()> {
    fs::create_dir_all(dir)?;
    let mut seeds = Random(seed);
    for i in 0..n {
        fs::write(dir.join(i.to_string()), session(seeds.next()))?;
    }
    Ok(())
}

/// Writes a session of typical use with so many lines: the 10.0 % line, all
/// bays in use at once, a decided lot cleared and the bay opened again.
pub fn typical(seed: u64, lines: u64, file: &Path) -> io::Result<()> {
    let mut to = BufWriter::new(File::create(file)?);
    let mut random = Random(seed);
    let mut model = Session::new(true);
    let mut items = 0u64;
    for i in 0..lines {
        let bay = random.below(BAYS as u64);
        let line = if i == 0 {
            format!("L {}", CARRIED[7])
        } else {
            match model.bay(bay as usize) {
                (false, _) => format!("O {bay}"),
                (_, true) => format!("X {bay}"),
                _ if random.below(28) == 0 => format!("R {bay}"),
                _ => {
                    items += 1;
                    format!("I {bay} {}", u64::from(random.below(1000) < 15))
                }
            }
        };
        model.answer(line.as_bytes(), &mut [0; REPLY_MAX]);
        writeln!(to, "{line}")?;
    }
    to.flush()?;
    eprintln!("{lines} lines, {:.1} % items", items as f64 * 100.0 / lines.max(1) as f64);
    Ok(())
}
