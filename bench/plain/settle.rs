use std::collections::BTreeSet;
use std::io::Write;

/// The least agents that can take a move.
fn pair(groups: &mut [BTreeSet<u32>], p: usize, q: usize) -> Option<(u32, u32)> {
    if groups[q].is_empty() {
        return None;
    }
    let a = groups[p].pop_first()?;
    match groups[q].pop_first() {
        Some(b) => Some((a, b)),
        None => {
            groups[p].insert(a);
            None
        }
    }
}

fn main() {
    let mut groups = vec![BTreeSet::new(); NAMES.len()];
    let mut agent = 0;
    for (state, count) in STARTS {
        for _ in 0..count {
            groups[state].insert(agent);
            agent += 1;
        }
    }
    let mut text = Vec::new();
    for layer in LAYERS {
        'takes: loop {
            let mut place = 0;
            while place < layer.len() {
                let t = layer[place];
                let (p, q, r, s) = MOVES[t];
                if groups[p].is_empty() {
                    while place < layer.len() && MOVES[layer[place]].0 == p {
                        place += 1;
                    }
                    continue;
                }
                if (p, q) != (r, s) && (p, q) != (s, r) {
                    if let Some((a, b)) = pair(&mut groups, p, q) {
                        groups[r].insert(a);
                        groups[s].insert(b);
                        writeln!(text, "take 0 {t} {a} {b}").unwrap();
                        continue 'takes;
                    }
                }
                place += 1;
            }
            break;
        }
    }
    text.extend_from_slice(b"end\n");
    let mut value = false;
    for (state, group) in groups.iter().enumerate() {
        if !group.is_empty() {
            writeln!(text, "{} {}", NAMES[state], group.len()).unwrap();
            value = OUTPUTS[state];
        }
    }
    writeln!(text, "verdict {value}").unwrap();
    std::io::stdout().write_all(&text).unwrap();
}
