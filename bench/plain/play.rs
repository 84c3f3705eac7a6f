use std::io::{Read, Write};

const NAMES: [&str; 4] = ["A", "B", "a", "b"];
const MOVES: [[u8; 4]; 4] = [[0, 1, 2, 3], [0, 3, 0, 2], [1, 2, 1, 3], [3, 2, 3, 3]];

/// What two states become.
fn table() -> [[(u8, u8); 4]; 4] {
    let mut after = [[(0, 0); 4]; 4];
    for (p, row) in after.iter_mut().enumerate() {
        for (q, pair) in row.iter_mut().enumerate() {
            *pair = (p as u8, q as u8);
        }
    }
    for [p, q, r, s] in MOVES {
        after[q as usize][p as usize] = (s, r);
        after[p as usize][q as usize] = (r, s);
    }
    after
}

/// The number of at most 20 digits up to a byte, and what stands behind that byte.
fn number(text: &[u8], end: u8) -> Option<(u64, &[u8])> {
    let mut value = 0u64;
    for (i, byte) in text.iter().enumerate() {
        if *byte == end && i > 0 {
            return Some((value, &text[i + 1..]));
        }
        if !byte.is_ascii_digit() || i == 20 {
            return None;
        }
        value = value.checked_mul(10)?.checked_add(u64::from(byte - b'0'))?;
    }
    None
}

fn meeting(text: &[u8], agents: usize) -> Option<(usize, usize, &[u8])> {
    let (a, rest) = number(text, b' ')?;
    let (b, rest) = number(rest, b'\n')?;
    let (a, b) = (a as usize, b as usize);
    (a != b && a < agents && b < agents).then_some((a, b, rest))
}

/// The least pair of agents that changes.
fn enabled(after: &[[(u8, u8); 4]; 4], crowd: &[u8]) -> Option<(usize, usize)> {
    let mut counts = [0u32; 4];
    for state in crowd {
        counts[*state as usize] += 1;
    }
    let changes = |p: u8, q: u8| after[p as usize][q as usize] != (p, q);
    let can = |p: u8| (0..4u8).any(|q| counts[q as usize] > u32::from(p == q) && changes(p, q));
    let a = crowd.iter().position(|p| can(*p))?;
    let b = (a + 1..crowd.len()).find(|b| changes(crowd[a], crowd[*b]))?;
    Some((a, b))
}

fn main() {
    let mut text = Vec::new();
    std::io::stdin().read_to_end(&mut text).unwrap();
    let after = table();
    let half = text.iter().position(|b| *b == b'\n').unwrap();
    let mut rest = &text[half + 1..];
    let line = std::str::from_utf8(&rest[..rest.iter().position(|b| *b == b'\n').unwrap()]).unwrap();
    let counts: Vec<usize> = line.split(' ').skip(1).map(|word| word[2..].parse().unwrap()).collect();
    rest = &rest[line.len() + 1..];
    let mut crowd = vec![0u8; counts[0]];
    crowd.resize(counts[0] + counts[1], 1);
    let mut number = 3u64;
    while !rest.is_empty() {
        let Some((a, b, more)) = meeting(rest, crowd.len()) else {
            println!("fault: line {number}");
            return;
        };
        (crowd[a], crowd[b]) = after[crowd[a] as usize][crowd[b] as usize];
        rest = more;
        number += 1;
    }
    let mut out = std::io::stdout().lock();
    for (state, name) in NAMES.iter().enumerate() {
        let there = crowd.iter().filter(|s| **s as usize == state).count();
        if there > 0 {
            writeln!(out, "{name} {there}").unwrap();
        }
    }
    match enabled(&after, &crowd) {
        None => writeln!(out, "terminal").unwrap(),
        Some((a, b)) => writeln!(out, "enabled {a} {b}").unwrap(),
    }
}
