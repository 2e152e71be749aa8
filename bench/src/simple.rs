//! The same program as one writes it first: the standard library's buffered
//! reader and writer, `split`, `parse` and `writeln!`, nothing tuned.

use std::io::{self, BufRead, BufReader, BufWriter, Read, Write};

#[derive(Clone, Copy)]
enum Base {
    Line { h_a: i64, h_r: i64, g: i64, n_t: i64, ac_t: i64 },
    Single { n: i64, a: i64 },
}

#[derive(Clone, Copy)]
struct Plan {
    base: Base,
    cut: Option<(i64, i64)>,
}

#[derive(Clone, Copy)]
struct Lot {
    size: i64,
    count: i64,
    verdict: char,
}

struct Refusal(u32, char, u32);

#[derive(Default)]
struct Session {
    plan: Option<Plan>,
    fresh: bool,
    bays: [Option<Lot>; 32],
    line: u32,
}

impl Base {
    fn last(&self) -> i64 {
        match *self {
            Base::Line { n_t, .. } => n_t,
            Base::Single { n, .. } => n,
        }
    }

    fn pair(&self, n: i64) -> (i64, i64) {
        match *self {
            Base::Line { n_t, ac_t, .. } if n == n_t => (ac_t, ac_t + 1),
            Base::Line { h_a, h_r, g, ac_t, .. } => (
                (g * n - h_a).div_euclid(1_000_000).max(-1).min(ac_t),
                ((g * n + h_r + 999_999) / 1_000_000).min(ac_t + 1),
            ),
            Base::Single { n: last, a } => (if n == last { a } else { -1 }, a + 1),
        }
    }
}

impl Plan {
    fn last(&self) -> i64 {
        self.cut.map_or(self.base.last(), |(c, _)| c.min(self.base.last()))
    }

    fn rule(&self, size: i64, count: i64) -> char {
        let (ac, re) = match self.cut {
            Some((c, a)) if size == c => (a, a + 1),
            Some((_, a)) => {
                let (ac, re) = self.base.pair(size);
                (ac.min(a), re.min(a + 1))
            }
            None => self.base.pair(size),
        };
        if count <= ac {
            'A'
        } else if count >= re {
            'R'
        } else {
            '-'
        }
    }
}

fn digits(word: &str, most: usize) -> Option<u64> {
    if word.is_empty() || word.len() > most || !word.bytes().all(|b| b.is_ascii_digit()) {
        return None;
    }
    word.parse().ok()
}

fn decimal(word: &str) -> Option<u64> {
    match word.split_once('.') {
        None => Some(digits(word, 4)? * 1_000_000),
        Some((whole, part)) => {
            let part_value = digits(part, 6)? * 10u64.pow(6 - part.len() as u32);
            Some(digits(whole, 4)? * 1_000_000 + part_value)
        }
    }
}

/// The numbers after the letter, each read by its reader.
fn numbers(words: &[&str], readers: &[fn(&str) -> Option<u64>]) -> Result<Vec<u64>, Refusal> {
    let mut values = Vec::with_capacity(readers.len());
    for (i, read) in readers.iter().enumerate() {
        let value = words.get(i + 1).and_then(|w| read(w));
        values.push(value.ok_or(Refusal(12, 'T', i as u32 + 2))?);
    }
    if words.len() > readers.len() + 1 {
        return Err(Refusal(12, 'T', readers.len() as u32 + 2));
    }
    Ok(values)
}

fn within(values: &[u64], limits: &[(u64, u64)]) -> Result<(), Refusal> {
    for (i, (v, (low, high))) in values.iter().zip(limits).enumerate() {
        if v < low || v > high {
            return Err(Refusal(2, 'N', i as u32 + 1));
        }
    }
    Ok(())
}

fn whole(word: &str) -> Option<u64> {
    digits(word, 7)
}

impl Session {
    fn answer(&mut self, line: &[u8], out: &mut impl Write) -> io::Result<()> {
        self.line = (self.line + 1).min(999_999);
        match self.obey(line) {
            Ok(reply) => writeln!(out, "{reply}"),
            Err(Refusal(cause, layer, place)) => {
                writeln!(out, "! {cause} {layer} {place} {}", self.line)
            }
        }
    }

    fn obey(&mut self, line: &[u8]) -> Result<String, Refusal> {
        if line.len() > 80 {
            return Err(Refusal(12, 'T', 1));
        }
        let text: String = line.iter().map(|&b| b as char).collect();
        let words: Vec<&str> = text.split(' ').collect();
        let kinds: &[fn(&str) -> Option<u64>] = match words[0] {
            "L" => &[decimal, decimal, decimal, whole, whole],
            "S" | "C" | "I" => &[whole, whole],
            "O" | "R" | "X" => &[whole],
            _ => return Err(Refusal(12, 'T', 1)),
        };
        let v = numbers(&words, kinds)?;
        let letter = words[0];
        match (letter, self.plan) {
            ("L" | "S", Some(_)) => Err(Refusal(24, 'T', 1)),
            ("L" | "S", None) => self.choose(letter, &v),
            (_, None) => Err(Refusal(23, 'T', 1)),
            ("C", Some(_)) if !self.fresh => Err(Refusal(24, 'T', 1)),
            ("C", Some(plan)) => {
                within(&v, &[(1, 4096), (0, 253)])?;
                let plan = Plan { cut: Some((v[0] as i64, v[1] as i64)), ..plan };
                self.plan = Some(plan);
                self.fresh = false;
                Ok(format!("P {}", plan.last()))
            }
            (_, Some(plan)) => self.call(letter, plan, &v),
        }
    }

    fn choose(&mut self, letter: &str, v: &[u64]) -> Result<String, Refusal> {
        let base = if letter == "L" {
            within(v, &[(1, 10_000_000), (1, 10_000_000), (1, 999_999), (1, 4096), (0, 253)])?;
            let n: Vec<i64> = v.iter().map(|&x| x as i64).collect();
            Base::Line { h_a: n[0], h_r: n[1], g: n[2], n_t: n[3], ac_t: n[4] }
        } else {
            within(v, &[(1, 4096), (0, 253)])?;
            Base::Single { n: v[0] as i64, a: v[1] as i64 }
        };
        self.plan = Some(Plan { base, cut: None });
        self.fresh = true;
        Ok(format!("P {}", base.last()))
    }

    fn call(&mut self, letter: &str, plan: Plan, v: &[u64]) -> Result<String, Refusal> {
        let bay = v[0] as u32;
        let slot = self.bays.get_mut(bay as usize).ok_or(Refusal(1, 'B', bay))?;
        if letter == "I" && v[1] > 1 {
            return Err(Refusal(3, 'N', 1));
        }
        if letter == "O" {
            if slot.is_some() {
                return Err(Refusal(20, 'B', bay));
            }
            *slot = Some(Lot { size: 0, count: 0, verdict: '-' });
            self.fresh = false;
            return Ok(format!("O {bay}"));
        }
        let mut lot = slot.ok_or(Refusal(21, 'B', bay))?;
        match letter {
            "I" if lot.verdict != '-' => return Err(Refusal(22, 'B', bay)),
            "I" => {
                lot.size += 1;
                lot.count += v[1] as i64;
                lot.verdict = plan.rule(lot.size, lot.count);
                *slot = Some(lot);
            }
            "X" => *slot = None,
            _ => {}
        }
        self.fresh = false;
        Ok(format!("{letter} {bay} {} {} {}", lot.size, lot.count, lot.verdict))
    }
}

pub fn run(input: impl Read, output: impl Write) -> io::Result<()> {
    let mut input = BufReader::with_capacity(65_536, input);
    let mut output = BufWriter::with_capacity(65_536, output);
    let mut session = Session::default();
    let mut line = Vec::new();
    loop {
        if input.buffer().is_empty() {
            output.flush()?;
        }
        line.clear();
        if input.read_until(b'\n', &mut line)? == 0 {
            return output.flush();
        }
        if line.last() == Some(&b'\n') {
            line.pop();
        }
        session.answer(&line, &mut output)?;
    }
}
