//! A leaf of a net, and the test of its layers.

use crate::reader::Value;

pub struct Leaf {
    pub states: usize,
    pub moves: Vec<[usize; 4]>,
    pub input: Vec<usize>,
    pub output: Vec<bool>,
    pub helpers: Vec<usize>,
}

fn is_silent(&[p, q, r, s]: &[usize; 4]) -> bool {
    (p, q) == (r, s) || (p, q) == (s, r)
}

impl Leaf {
    pub fn of(value: &Value, format: i64) -> Leaf {
        Leaf {
            states: value["states"].list().len(),
            moves: value["moves"].list().iter().map(|m| m.numbers().try_into().unwrap()).collect(),
            input: value["input"].numbers(),
            output: value["output"].list().iter().map(|flag| matches!(flag, Value::Bool(true))).collect(),
            helpers: if format == 1 { Vec::new() } else { value["helpers"].numbers() },
        }
    }

    /// The moves that are not silent, with their numbers.
    pub fn loud_moves(&self) -> impl Iterator<Item = (usize, &[usize; 4])> {
        self.moves.iter().enumerate().filter(|(_, m)| !is_silent(m))
    }

    /// The bound of the layers, or why they are not valid.
    pub fn check_layers(&self, layers: &[Value]) -> Result<i64, String> {
        let weights: Vec<Vec<i64>> =
            layers.iter().map(|layer| layer["weights"].list().iter().map(Value::signed).collect()).collect();
        let mut layer_of = vec![usize::MAX; self.moves.len()];
        for (n, layer) in layers.iter().enumerate() {
            for t in layer["moves"].numbers() {
                if layer_of.get(t) != Some(&usize::MAX) {
                    return Err(format!("shape {n}"));
                }
                layer_of[t] = n;
            }
            if weights[n].len() != self.states {
                return Err(format!("shape {n}"));
            }
        }
        if let Some((t, _)) = self.loud_moves().find(|(t, _)| layer_of[*t] == usize::MAX) {
            return Err(format!("no-layer {t}"));
        }
        for (t, [p, q, r, s]) in self.loud_moves() {
            let w = &weights[layer_of[t]];
            if w[*r] + w[*s] >= w[*p] + w[*q] {
                return Err(format!("not-lower {t}"));
            }
        }
        let mut first = vec![usize::MAX; self.states * self.states];
        for (t, [p, q, _, _]) in self.loud_moves() {
            for pair in [p * self.states + q, q * self.states + p] {
                first[pair] = first[pair].min(layer_of[t]);
            }
        }
        for (t, m) in self.loud_moves() {
            let wakes =
                |a, b| first[a * self.states + b] < layer_of[t] && !self.was_awake(&first, layer_of[t], m, a, b);
            if (0..self.states).any(|a| wakes(m[2], a) || wakes(m[3], a)) {
                let (u, _) = self.loud_moves().find(|(u, n)| layer_of[*u] < layer_of[t] && wakes(n[0], n[1])).unwrap();
                return Err(format!("wakes {t} {u}"));
            }
        }
        Ok(weights.iter().map(|w| w.iter().max().unwrap() - w.iter().min().unwrap()).sum())
    }

    /// Whether a meeting of an earlier layer was possible before the move, among its two agents and those with these
    /// states that it doesn't bring.
    fn was_awake(&self, first: &[usize], layer: usize, m: &[usize; 4], a: usize, b: usize) -> bool {
        let mut rest = vec![a, b];
        for put in &m[2..] {
            if let Some(at) = rest.iter().position(|state| state == put) {
                rest.remove(at);
            }
        }
        rest.extend(&m[..2]);
        (1..rest.len()).any(|j| (0..j).any(|i| first[rest[i] * self.states + rest[j]] < layer))
    }
}
