use std::io::Write;
use std::sync::atomic::{AtomicU64, Ordering};
use std::sync::Mutex;

const STATES: usize = 4;
const MOVES: [[usize; 4]; 4] = [[0, 1, 2, 3], [0, 3, 0, 2], [1, 2, 1, 3], [3, 2, 3, 3]];

/// What two states of a leaf become, for each pair of them.
struct Leaf(Vec<(u8, u8)>);

impl Leaf {
    fn new() -> Leaf {
        let mut after: Vec<_> = (0..STATES * STATES).map(|pair| ((pair / STATES) as u8, (pair % STATES) as u8)).collect();
        for [p, q, r, s] in MOVES {
            after[p * STATES + q] = (r as u8, s as u8);
            after[q * STATES + p] = (s as u8, r as u8);
        }
        Leaf(after)
    }

    fn react(&self, p: u8, q: u8) -> (u8, u8) {
        self.0[p as usize * STATES + q as usize]
    }
}

fn state(word: u64, leaf: usize) -> u8 {
    (word >> (8 * leaf)) as u8
}

/// Each leaf reacts by itself. A word has eight bits for each leaf.
fn react(net: &[Leaf], x: u64, y: u64) -> (u64, u64) {
    let mut both = (0, 0);
    for (i, leaf) in net.iter().enumerate() {
        let (p, q) = leaf.react(state(x, i), state(y, i));
        both.0 |= u64::from(p) << (8 * i);
        both.1 |= u64::from(q) << (8 * i);
    }
    both
}

/// Whether a state can react with one that another agent has.
fn restless(leaf: &Leaf, seen: &[u32]) -> Vec<bool> {
    let others = |p, q| seen[q] > u32::from(p == q);
    (0..STATES).map(|p| (0..STATES).any(|q| others(p, q) && leaf.react(p as u8, q as u8) != (p as u8, q as u8))).collect()
}

/// The least pair of agents that changes.
fn enabled(net: &[Leaf], words: &[u64]) -> Option<(usize, usize)> {
    let mut seen = vec![[0; STATES]; net.len()];
    for word in words {
        for (leaf, seen) in seen.iter_mut().enumerate() {
            seen[state(*word, leaf) as usize] += 1;
        }
    }
    let can: Vec<_> = net.iter().zip(&seen).map(|(leaf, seen)| restless(leaf, seen)).collect();
    let changes = |a: usize, b: usize| react(net, words[a], words[b]) != (words[a], words[b]);
    (0..words.len())
        .filter(|a| (0..net.len()).any(|i| can[i][state(words[*a], i) as usize]))
        .find_map(|a| (a + 1..words.len()).find(|b| changes(a, *b)).map(|b| (a, b)))
}

type Shard = Mutex<Vec<u64>>;

/// The words of all agents, between two rounds.
fn words_of(shards: &mut [Shard], agents: usize) -> Vec<u64> {
    let n = shards.len();
    let mut words = vec![0; agents];
    for (s, shard) in shards.iter_mut().enumerate() {
        for (k, word) in shard.get_mut().unwrap().iter().enumerate() {
            words[k * n + s] = *word;
        }
    }
    words
}

/// Whether the crowd is terminal. The pair that was found last is looked at first.
fn is_terminal(net: &[Leaf], shards: &mut [Shard], agents: usize, last: &mut Option<(usize, usize)>) -> bool {
    let n = shards.len();
    let mut word = |a: usize| shards[a % n].get_mut().unwrap()[a / n];
    if let Some((x, y)) = last.map(|(a, b)| (word(a), word(b))) {
        if react(net, x, y) != (x, y) {
            return false;
        }
    }
    *last = enabled(net, &words_of(shards, agents));
    last.is_none()
}

fn meet(net: &[Leaf], shards: &[Shard], clock: &AtomicU64, a: usize, b: usize) -> (u64, bool) {
    let n = shards.len();
    let (s, t) = (a % n, b % n);
    let after = |x: u64, y: u64| {
        let ticket = clock.fetch_add(1, Ordering::SeqCst);
        let (p, q) = react(net, x, y);
        (ticket, p, q, (p, q) != (x, y))
    };
    if s == t {
        let mut one = shards[s].lock().unwrap();
        let (ticket, p, q, changed) = after(one[a / n], one[b / n]);
        one[a / n] = p;
        one[b / n] = q;
        return (ticket, changed);
    }
    let mut low = shards[s.min(t)].lock().unwrap();
    let mut high = shards[s.max(t)].lock().unwrap();
    let (first, second) = if s < t { (&mut low, &mut high) } else { (&mut high, &mut low) };
    let (ticket, p, q, changed) = after(first[a / n], second[b / n]);
    first[a / n] = p;
    second[b / n] = q;
    (ticket, changed)
}

fn main() {
    let words: Vec<u64> = std::env::args().skip(1).map(|w| w.parse().unwrap()).collect();
    let (workers, shards, turns, n) = (words[0], words[1] as usize, words[2], words[3] as usize);
    let net = vec![Leaf::new()];
    let mut field: Vec<Vec<u64>> = vec![Vec::new(); shards];
    for a in 0..n {
        field[a % shards].push(if a <= n / 2 { 0 } else { 1 });
    }
    let mut field: Vec<Shard> = field.into_iter().map(Mutex::new).collect();
    let mut picks: Vec<Words> = (0..workers).map(Words::new).collect();
    let numerals = Numerals::new(n.max(workers as usize));
    let mut out = Vec::with_capacity((turns * workers) as usize * LINE_ROOM / 2);
    let (mut page, mut at) = ([0u8; PAGE], 0);
    let mut left = turns;
    let mut round = 0;
    let mut last = None;
    while left > 0 && !is_terminal(&net, &mut field, n, &mut last) {
        round += 1;
        let count = left.min(4096);
        let clock = AtomicU64::new(0);
        let (net, field, clock) = (&net, &field, &clock);
        let logs: Vec<Vec<(u64, u32, u32, bool)>> = std::thread::scope(|scope| {
            let threads: Vec<_> = picks.iter_mut().map(|pick| scope.spawn(move || {
                let mut log = Vec::with_capacity(count as usize);
                for _ in 0..count {
                    let word = pick.next();
                    let a = (word >> 32) % n as u64;
                    let mut b = (word & 0xffff_ffff) % (n as u64 - 1);
                    if a <= b {
                        b += 1;
                    }
                    let (ticket, changed) = meet(net, field, clock, a as usize, b as usize);
                    log.push((ticket, a as u32, b as u32, changed));
                }
                log
            })).collect();
            threads.into_iter().map(|t| t.join().unwrap()).collect()
        });
        let mut all = vec![(0u64, 0u32, 0u32, false); (count * workers) as usize];
        for (worker, log) in logs.iter().enumerate() {
            for (ticket, a, b, changed) in log {
                all[*ticket as usize] = (worker as u64, *a, *b, *changed);
            }
        }
        write!(out, "round {round}\n").unwrap();
        for (worker, a, b, changed) in all {
            if at > PAGE - LINE_ROOM {
                out.extend_from_slice(&page[..at]);
                at = 0;
            }
            at = numerals.put(&mut page, at, worker as usize);
            page[at] = b' ';
            at = numerals.put(&mut page, at + 1, a as usize);
            page[at] = b' ';
            at = numerals.put(&mut page, at + 1, b as usize);
            page[at..at + 3].copy_from_slice(b" *\n");
            at += if changed { 3 } else { 1 };
            page[at - 1] = b'\n';
        }
        out.extend_from_slice(&page[..at]);
        at = 0;
        left -= count;
    }
    std::io::stdout().write_all(&out).unwrap();
}
