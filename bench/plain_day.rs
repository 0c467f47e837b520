// The day program once more, in plain Rust and without proofs: to measure the proved one against, and to compare
// answers on many inputs. It was written from docs/, not from the proved crates.
use std::io::{Read, Write};

struct Siding {
    inner: Vec<usize>,
    branches: Vec<Vec<usize>>,
    wagon: Vec<bool>,
    berth: Vec<bool>,
    demand: Vec<i64>,
    figure: i64,
    moves: u32,
}

fn draw_up(sheet: &[u8]) -> Result<Siding, (u8, usize)> {
    if sheet.len() < 4 {
        return Err((1, 0));
    }
    let word = |at: usize| sheet[at] as usize * 256 + sheet[at + 1] as usize;
    let n = word(0);
    if n == 0 || n > 512 {
        return Err((2, 0));
    }
    if sheet.len() != 4 + 3 * n {
        return Err((1, 0));
    }
    let inner: Vec<usize> = (0..n).map(|s| word(4 + 2 * s)).collect();
    let marks = &sheet[4 + 2 * n..];
    if let Some(s) = (0..n).find(|&s| if s == 0 { inner[0] != 0 } else { inner[s] >= s }) {
        return Err((3, s));
    }
    if let Some(s) = (0..n).find(|&s| marks[s] > 3) {
        return Err((4, s));
    }
    let wagon: Vec<bool> = marks.iter().map(|m| m & 1 != 0).collect();
    let berth: Vec<bool> = marks.iter().map(|m| m & 2 != 0).collect();
    if wagon.iter().filter(|w| **w).count() != word(2) {
        return Err((5, 0));
    }
    let mut branches = vec![Vec::new(); n];
    for s in 1..n {
        branches[inner[s]].push(s);
    }
    let mut demand: Vec<i64> = (0..n).map(|s| berth[s] as i64 - wagon[s] as i64).collect();
    for s in (1..n).rev() {
        demand[inner[s]] += demand[s];
    }
    let figure = demand[1..].iter().map(|d| d.abs()).sum();
    Ok(Siding { inner, branches, wagon, berth, demand, figure, moves: 0 })
}

impl Siding {
    fn shift(&mut self, at: usize, by: i64) {
        let mut u = at;
        while u > 0 {
            self.figure += (self.demand[u] + by).abs() - self.demand[u].abs();
            self.demand[u] += by;
            u = self.inner[u];
        }
        self.demand[0] += by;
        self.moves = 0;
    }

    fn stock(&mut self, letter: char, s: usize) -> Result<(), u8> {
        if s >= self.inner.len() {
            return Err(6);
        }
        let (there, by) = match letter {
            'p' => (&mut self.wagon[s], -1),
            't' => (&mut self.wagon[s], 1),
            'b' => (&mut self.berth[s], 1),
            _ => (&mut self.berth[s], -1),
        };
        let add = letter == 'p' || letter == 'b';
        if *there == add {
            return Err(if add { 7 } else { 8 });
        }
        *there = add;
        self.shift(s, by);
        Ok(())
    }

    fn hand_move(&mut self, a: usize, b: usize) -> Result<(), u8> {
        let n = self.inner.len();
        if a >= n || b >= n {
            return Err(6);
        }
        if !((b > 0 && self.inner[b] == a) || (a > 0 && self.inner[a] == b)) {
            return Err(9);
        }
        if !self.wagon[a] {
            return Err(8);
        }
        if self.wagon[b] {
            return Err(7);
        }
        if self.moves >= 500_000 {
            return Err(11);
        }
        self.wagon[a] = false;
        self.wagon[b] = true;
        let (s, by) = if b < a { (a, 1) } else { (b, -1) };
        self.figure += (self.demand[s] + by).abs() - self.demand[s].abs();
        self.demand[s] += by;
        self.moves += 1;
        Ok(())
    }

    fn unsettled(&self, u: usize) -> Option<usize> {
        if self.branches[u].iter().any(|&c| self.demand[c] != 0) {
            return Some(u);
        }
        self.branches[u].iter().find_map(|&c| self.unsettled(c))
    }

    fn first_move(&self, u: usize, sign: i64) -> (usize, usize) {
        let v = *self.branches[u].iter().find(|&&c| self.demand[c] * sign > 0).unwrap();
        if self.wagon[v] == (sign > 0) {
            self.first_move(v, sign)
        } else if sign > 0 {
            (u, v)
        } else {
            (v, u)
        }
    }

    fn step(&mut self) -> Result<Option<(usize, usize)>, u8> {
        let count = |xs: &[bool]| xs.iter().filter(|x| **x).count();
        if count(&self.wagon) != count(&self.berth) {
            return Err(10);
        }
        let Some(u) = self.unsettled(0) else {
            return Ok(None);
        };
        let (a, b) = self.first_move(u, if self.wagon[u] { 1 } else { -1 });
        self.hand_move(a, b)?;
        Ok(Some((a, b)))
    }
}

fn numbers(rest: &str, wanted: usize) -> Option<Vec<usize>> {
    let parts: Vec<&str> = rest.split(' ').collect();
    if parts.len() != wanted + 1 || !parts[0].is_empty() {
        return None;
    }
    parts[1..]
        .iter()
        .map(|p| {
            let digits = !p.is_empty() && p.bytes().all(|b| b.is_ascii_digit());
            if !digits || (p.len() > 1 && p.starts_with('0')) || p.len() > 5 {
                return None;
            }
            p.parse().ok().filter(|v| *v <= 65_535)
        })
        .collect()
}

fn answer(siding: &mut Siding, line: &[u8]) -> String {
    let bad = "no 15".to_string();
    let Some((&10, text)) = line.split_last() else { return bad };
    let Ok(text) = std::str::from_utf8(text) else { return bad };
    let Some(letter) = text.chars().next() else { return bad };
    let rest = &text[letter.len_utf8()..];
    let done = match letter {
        'p' | 't' | 'b' | 'u' => match numbers(rest, 1) {
            Some(s) => siding.stock(letter, s[0]),
            None => return bad,
        },
        'm' => match numbers(rest, 2) {
            Some(s) => siding.hand_move(s[0], s[1]),
            None => return bad,
        },
        'n' if rest.is_empty() => {
            siding.moves = 0;
            Ok(())
        }
        's' if rest.is_empty() => {
            return match siding.step() {
                Ok(Some((a, b))) => format!("{a} {b} {}", siding.figure),
                Ok(None) => format!("- {}", siding.figure),
                Err(e) => format!("no {e}"),
            };
        }
        _ => return bad,
    };
    match done {
        Ok(()) => format!("ok {}", siding.figure),
        Err(e) => format!("no {e}"),
    }
}

fn main() {
    let mut input = Vec::new();
    std::io::stdin().take(65_537).read_to_end(&mut input).unwrap();
    let mut out = String::new();
    if input.len() > 65_536 {
        out.push_str("no 12 0\n");
    } else {
        let word = |at: usize| input.get(at).copied().unwrap_or(0) as usize;
        let size = input.len().min(4 + 3 * (256 * word(0) + word(1)));
        match draw_up(&input[..size]) {
            Err((e, place)) => out.push_str(&format!("no {e} {place}\n")),
            Ok(mut siding) => {
                let wagons = siding.wagon.iter().filter(|w| **w).count();
                out.push_str(&format!("{} {} {}\n", siding.inner.len(), wagons, siding.figure));
                for line in input[size..].split_inclusive(|b| *b == 10) {
                    out.push_str(&answer(&mut siding, line));
                    out.push('\n');
                }
            }
        }
    }
    std::io::stdout().write_all(out.as_bytes()).unwrap();
}
