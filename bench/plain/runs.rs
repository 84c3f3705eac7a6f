use std::collections::BTreeMap;
use std::io::Write;

/// What two states become, for each pair of states: the first move of the list that matches and is not silent.
struct Table {
    states: usize,
    after: Vec<(u16, u16)>,
}

impl Table {
    fn new(states: usize, moves: &[[u16; 4]]) -> Table {
        let mut after: Vec<(u16, u16)> = (0..states * states)
            .map(|pair| ((pair / states) as u16, (pair % states) as u16))
            .collect();
        for m in moves.iter().rev() {
            let silent = (m[0] == m[2] && m[1] == m[3]) || (m[0] == m[3] && m[1] == m[2]);
            if !silent {
                after[m[1] as usize * states + m[0] as usize] = (m[3], m[2]);
                after[m[0] as usize * states + m[1] as usize] = (m[2], m[3]);
            }
        }
        Table { states, after }
    }

    fn react(&self, x: u16, y: u16) -> (u16, u16) {
        self.after[x as usize * self.states + y as usize]
    }
}

/// The least pair of agents that changes: the states that are there, which of them can react, then one walk.
fn enabled(table: &Table, crowd: &[u16]) -> Option<(usize, usize)> {
    let mut counts = vec![0u32; table.states];
    for state in crowd {
        counts[*state as usize] += 1;
    }
    let there: Vec<u16> = (0..table.states as u16).filter(|q| counts[*q as usize] > 0).collect();
    let can: Vec<bool> = (0..table.states as u16)
        .map(|p| {
            there.iter().any(|q| table.react(p, *q) != (p, *q) && (p != *q || counts[p as usize] > 1))
        })
        .collect();
    let a = crowd.iter().position(|state| can[*state as usize])?;
    let b = (a + 1..crowd.len()).find(|b| table.react(crowd[a], crowd[*b]) != (crowd[a], crowd[*b]))?;
    Some((a, b))
}

/// Whether the crowd is terminal. The pair that was found last is looked at first.
fn is_terminal(table: &Table, crowd: &[u16], last: &mut Option<(usize, usize)>) -> bool {
    if let Some((x, y)) = last.map(|(a, b)| (crowd[a], crowd[b])) {
        if table.react(x, y) != (x, y) {
            return false;
        }
    }
    *last = enabled(table, crowd);
    last.is_none()
}

fn main() {
    let text = std::fs::read_to_string(std::env::args().nth(1).unwrap()).unwrap();
    let mut lines = text.lines();
    let names: Vec<&str> = lines.next().unwrap().split(' ').collect();
    let moves: Vec<[u16; 4]> = lines.next().unwrap().split(' ').filter(|w| !w.is_empty()).map(|w| {
        let p: Vec<u16> = w.split(',').map(|n| n.parse().unwrap()).collect();
        [p[0], p[1], p[2], p[3]]
    }).collect();
    let mut crowd: Vec<u16> = Vec::new();
    for word in lines.next().unwrap().split(' ') {
        let (state, count) = word.split_once(',').unwrap();
        crowd.resize(crowd.len() + count.parse::<usize>().unwrap(), state.parse().unwrap());
    }
    let table = Table::new(names.len(), &moves);
    let turns: u64 = lines.next().unwrap().parse().unwrap();
    let outputs: Vec<&str> = lines.next().unwrap().split(' ').collect();
    let mut words = Words::new(0);
    let numerals = Numerals::new(crowd.len());
    let mut out = Vec::with_capacity(turns as usize * LINE_ROOM / 2);
    write!(out, "run workers 1 shards 16 turns {turns} seed 0\n").unwrap();
    let (mut page, mut at) = ([0u8; PAGE], 0);
    let (mut left, mut round) = (turns, 0);
    let n = crowd.len() as u64;
    let mut last = None;
    while left > 0 && !is_terminal(&table, &crowd, &mut last) {
        let count = left.min(4096);
        round += 1;
        write!(out, "round {round}\n").unwrap();
        for _ in 0..count {
            let word = words.next();
            let a = (word >> 32) % n;
            let mut b = (word & 0xffff_ffff) % (n - 1);
            if a <= b {
                b += 1;
            }
            let (a, b) = (a as usize, b as usize);
            let (x, y) = (crowd[a], crowd[b]);
            let (r, s) = table.react(x, y);
            crowd[a] = r;
            crowd[b] = s;
            if at > PAGE - LINE_ROOM {
                out.extend_from_slice(&page[..at]);
                at = 0;
            }
            page[at..at + 2].copy_from_slice(b"0 ");
            at = numerals.put(&mut page, at + 2, a);
            page[at] = b' ';
            at = numerals.put(&mut page, at + 1, b);
            page[at..at + 3].copy_from_slice(b" *\n");
            if (x, y) == (r, s) {
                page[at] = b'\n';
                at += 1;
            } else {
                at += 3;
            }
        }
        out.extend_from_slice(&page[..at]);
        at = 0;
        left -= count;
    }
    out.extend_from_slice(b"end\n");
    let mut counts = BTreeMap::new();
    for word in &crowd {
        *counts.entry(*word).or_insert(0u64) += 1;
    }
    for (state, count) in counts {
        write!(out, "{} {}\n", names[state as usize], count).unwrap();
    }
    match enabled(&table, &crowd) {
        None => write!(out, "verdict {}\n", outputs[crowd[0] as usize]).unwrap(),
        Some((a, b)) => write!(out, "undecided {a} {b}\n").unwrap(),
    }
    std::io::stdout().write_all(&out).unwrap();
}
