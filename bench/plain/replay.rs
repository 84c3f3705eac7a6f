use std::collections::BTreeMap;
use std::io::{Read, Write};

const NAMES: [&str; 4] = ["A", "B", "a", "b"];
const OUTPUTS: [bool; 4] = [true, false, true, false];
const MOVES: [[u8; 4]; 4] = [[0, 1, 2, 3], [0, 3, 0, 2], [1, 2, 1, 3], [3, 2, 3, 3]];

fn react(table: &[(u8, u8); 16], x: u8, y: u8) -> (u8, u8) {
    table[x as usize * 4 + y as usize]
}

fn table() -> [(u8, u8); 16] {
    let mut table = [(0, 0); 16];
    for pair in 0..16u8 {
        table[pair as usize] = (pair / 4, pair % 4);
    }
    for m in MOVES.iter().rev() {
        table[m[1] as usize * 4 + m[0] as usize] = (m[3], m[2]);
        table[m[0] as usize * 4 + m[1] as usize] = (m[2], m[3]);
    }
    table
}

#[derive(Clone, Copy, PartialEq, Eq)]
struct Meeting {
    worker: u16,
    a: u32,
    b: u32,
    changed: bool,
}

struct Journal {
    workers: u64,
    turns: u64,
    seed: u64,
    rounds: Vec<Vec<Meeting>>,
    tail: Vec<Vec<u8>>,
}

/// A number as it is printed.
fn number(text: &[u8]) -> Option<u64> {
    if text.is_empty() || text.len() > 19 || (text.len() > 1 && text[0] == b'0') {
        return None;
    }
    let mut value = 0;
    for byte in text {
        if !byte.is_ascii_digit() {
            return None;
        }
        value = value * 10 + u64::from(byte - b'0');
    }
    Some(value)
}

fn spec(line: &[u8]) -> Option<(u64, u64, u64)> {
    let words: Vec<&[u8]> = line.split(|b| *b == b' ').collect();
    if words.len() != 9 || words[0] != b"run" {
        return None;
    }
    for (i, name) in ["workers", "shards", "turns", "seed"].iter().enumerate() {
        if words[2 * i + 1] != name.as_bytes() {
            return None;
        }
    }
    let workers = number(words[2])?;
    number(words[4])?;
    let turns = number(words[6])?;
    if workers == 0 || workers > 64 || workers * turns > 2_000_000 {
        return None;
    }
    Some((workers, turns, number(words[8])?))
}

fn meeting(line: &[u8]) -> Option<(u64, u64, u64, bool)> {
    let mut words = line.split(|b| *b == b' ');
    let told = (number(words.next()?)?, number(words.next()?)?, number(words.next()?)?);
    let mark = match words.next() {
        None => false,
        Some(b"*") => true,
        Some(_) => return None,
    };
    if words.next().is_some() { None } else { Some((told.0, told.1, told.2, mark)) }
}

fn read(text: &[u8], agents: u64) -> Result<Journal, (u64, &'static str)> {
    let text = text.strip_suffix(b"\n").unwrap_or(text);
    let mut lines = text.split(|b| *b == b'\n');
    let mut at = 3;
    let (workers, turns, seed) = lines.next().and_then(spec).ok_or((at, "form"))?;
    let mut rounds = Vec::new();
    let mut left = turns;
    loop {
        at += 1;
        let line = lines.next().ok_or((at, "missing"))?;
        if line == b"end" {
            break;
        }
        if line != format!("round {}", rounds.len() + 1).as_bytes() {
            return Err((at, "form"));
        }
        if left == 0 {
            return Err((at, "round"));
        }
        let each = left.min(4096);
        let mut made = vec![0u64; workers as usize];
        let mut meetings = Vec::new();
        while (meetings.len() as u64) < workers * each {
            at += 1;
            let line = lines.next().ok_or((at, "missing"))?;
            let (w, a, b, changed) = meeting(line).ok_or((at, "form"))?;
            if w >= workers || made[w as usize] >= each {
                return Err((at, "worker"));
            }
            if a == b || a >= agents || b >= agents {
                return Err((at, "agents"));
            }
            made[w as usize] += 1;
            meetings.push(Meeting { worker: w as u16, a: a as u32, b: b as u32, changed });
        }
        rounds.push(meetings);
        left -= each;
    }
    let tail = lines.map(|line| line.to_vec()).collect();
    Ok(Journal { workers, turns, seed, rounds, tail })
}

/// The least pair of agents that changes.
fn enabled(table: &[(u8, u8); 16], crowd: &[u8]) -> Option<(usize, usize)> {
    let mut counts = [0u32; 4];
    for state in crowd {
        counts[*state as usize] += 1;
    }
    let can: Vec<bool> = (0..4u8)
        .map(|p| {
            (0..4u8).any(|q| {
                counts[q as usize] > u32::from(p == q) && react(table, p, q) != (p, q)
            })
        })
        .collect();
    let a = crowd.iter().position(|state| can[*state as usize])?;
    let b = (a + 1..crowd.len()).find(|b| react(table, crowd[a], crowd[*b]) != (crowd[a], crowd[*b]))?;
    Some((a, b))
}

fn told(m: &Meeting) -> Vec<u8> {
    format!("{} {} {}{}", m.worker, m.a, m.b, if m.changed { " *" } else { "" }).into_bytes()
}

type Difference = (u64, Vec<u8>, Vec<u8>);

fn verify(journal: &Journal, mut crowd: Vec<u8>) -> Result<u64, Difference> {
    let table = table();
    let n = crowd.len() as u64;
    let mut words: Vec<Words> = (0..journal.workers).map(|w| Words::new(journal.seed + w)).collect();
    let mut at = 4;
    let mut total = 0;
    for (k, meetings) in journal.rounds.iter().enumerate() {
        if enabled(&table, &crowd).is_none() {
            return Err((at, format!("round {}", k + 1).into_bytes(), b"end".to_vec()));
        }
        for (i, kept) in meetings.iter().enumerate() {
            let word = words[kept.worker as usize].next();
            let a = (word >> 32) % n;
            let mut b = (word & 0xffff_ffff) % (n - 1);
            if a <= b {
                b += 1;
            }
            let (x, y) = (crowd[a as usize], crowd[b as usize]);
            let (r, s) = react(&table, x, y);
            crowd[a as usize] = r;
            crowd[b as usize] = s;
            let found = Meeting { worker: kept.worker, a: a as u32, b: b as u32, changed: (x, y) != (r, s) };
            if *kept != found {
                return Err((at + 1 + i as u64, told(kept), told(&found)));
            }
        }
        at += 1 + meetings.len() as u64;
        total += meetings.len() as u64;
    }
    let open = enabled(&table, &crowd);
    let k = journal.rounds.len() as u64;
    if open.is_some() && 4096 * k < journal.turns {
        return Err((at, b"end".to_vec(), format!("round {}", k + 1).into_bytes()));
    }
    let mut counts = BTreeMap::new();
    for state in &crowd {
        *counts.entry(*state).or_insert(0u64) += 1;
    }
    let mut wanted: Vec<Vec<u8>> =
        counts.iter().map(|(state, count)| format!("{} {}", NAMES[*state as usize], count).into_bytes()).collect();
    let first = OUTPUTS[crowd[0] as usize];
    wanted.push(match open {
        Some((a, b)) => format!("undecided {a} {b}"),
        None if crowd.iter().all(|q| OUTPUTS[*q as usize] == first) => format!("verdict {first}"),
        None => "terminal".to_string(),
    }.into_bytes());
    for i in 0..wanted.len().max(journal.tail.len()) {
        if wanted.get(i) != journal.tail.get(i) {
            let text = |lines: &Vec<Vec<u8>>| lines.get(i).cloned().unwrap_or_default();
            return Err((at + 1 + i as u64, text(&journal.tail), text(&wanted)));
        }
    }
    Ok(total)
}

fn main() {
    let mut text = Vec::new();
    std::io::stdin().read_to_end(&mut text).unwrap();
    let mut crowd = Vec::new();
    let mut at = 0;
    for _ in 0..2 {
        at += text[at..].iter().position(|b| *b == b'\n').unwrap() + 1;
    }
    for (state, count) in std::env::args().skip(1).enumerate() {
        crowd.resize(crowd.len() + count.parse::<usize>().unwrap(), state as u8);
    }
    let mut out = std::io::stdout();
    match read(&text[at..], crowd.len() as u64) {
        Err((line, why)) => writeln!(out, "fault: journal {line} {why}").unwrap(),
        Ok(journal) => match verify(&journal, crowd) {
            Ok(total) => writeln!(out, "holds {total}").unwrap(),
            Err((line, kept, found)) => {
                write!(out, "differs {line}\nkept: ").unwrap();
                out.write_all(&kept).unwrap();
                write!(out, "\nfound: ").unwrap();
                out.write_all(&found).unwrap();
                out.write_all(b"\n").unwrap();
            }
        },
    }
}
