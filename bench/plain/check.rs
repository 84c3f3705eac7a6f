//! A plain program for `check`: it reads a bundle, and prints the line that the built program prints of it.
//! It panics where the bundle is malformed.

mod leaf;
mod reader;

use leaf::Leaf;
use reader::{Pred, Reader, Value};
use std::io::Read;
use Fact::{AtLeast, Divides, DividesNot, Is, Zero};

const PATH_LIMIT: usize = 4_096;
const FACT_LIMIT: usize = 65_536;

/// A sum of variables, and a constant.
struct Row(Vec<(usize, i64)>, i64);

enum Fact<'a> {
    AtLeast(Row),
    Zero(Row),
    Divides(i64, Row),
    DividesNot(i64, Row),
    Is(&'a Pred, bool),
}

/// A tree of cases that is gone through: the facts so far, and the sum of those that a node names.
struct Walk<'a> {
    leaf: &'a Leaf,
    meets: Vec<bool>,
    facts: Vec<Fact<'a>>,
    nodes: &'a [Value],
    at: usize,
    sum: Vec<i128>,
}

impl<'a> Walk<'a> {
    fn new(leaf: &'a Leaf, pred: &'a Pred, value: bool, nodes: &'a [Value]) -> Walk<'a> {
        let mut meets = vec![false; leaf.states * leaf.states];
        for (_, [p, q, _, _]) in leaf.loud_moves() {
            meets[p * leaf.states + q] = true;
            meets[q * leaf.states + p] = true;
        }
        let (inputs, states) = (leaf.input.len(), leaf.states);
        let mut flows: Vec<Row> = (0..states).map(|q| Row(vec![(inputs + q, -1)], 0)).collect();
        for (i, q) in leaf.input.iter().enumerate() {
            flows[*q].0.push((i, 1));
        }
        for (t, m) in leaf.loud_moves() {
            for (q, by) in m.iter().zip([-1, -1, 1, 1]) {
                flows[*q].0.push((inputs + states + t, by));
            }
        }
        for q in &leaf.helpers {
            flows[*q].1 += 1;
        }
        let wrong = (0..states).filter(|q| leaf.output[*q] != value).map(|q| (inputs + q, 1));
        let mut facts: Vec<Fact> = flows.into_iter().map(Zero).collect();
        facts.push(AtLeast(Row((0..inputs).map(|i| (i, 1)).collect(), leaf.helpers.len() as i64 - 2)));
        facts.push(Is(pred, value));
        facts.push(AtLeast(Row(wrong.collect(), -1)));
        let sum = vec![0; inputs + states + leaf.moves.len()];
        Walk { leaf, meets, facts, nodes, at: 0, sum }
    }

    fn close(&mut self, above: usize) -> Result<(), String> {
        let number = self.at;
        let node = self.nodes.get(number).ok_or(format!("{number} missing"))?;
        if above == PATH_LIMIT {
            return Err(format!("{number} too-deep"));
        }
        self.at += 1;
        let cases = self.cases(node.list()).map_err(|why| format!("{number} {why}"))?;
        let known = self.facts.len();
        if cases.iter().any(|case| known + case.len() > FACT_LIMIT) {
            return Err(format!("{number} too-many-facts"));
        }
        for case in cases {
            self.facts.extend(case);
            self.close(above + 1)?;
            self.facts.truncate(known);
        }
        Ok(())
    }

    fn cases(&mut self, node: &[Value]) -> Result<Vec<Vec<Fact<'a>>>, &'static str> {
        let inputs = self.leaf.input.len();
        let below = |number: usize, end: usize| if number < end { Ok(number) } else { Err("bad-index") };
        match node[0].text() {
            "lin" => {
                let constant = self.add(&node[1], 0)?;
                let closes = constant < 0 && self.sum.iter().all(|coef| *coef <= 0);
                if closes {
                    Ok(Vec::new())
                } else {
                    Err("not-closed")
                }
            }
            "residue" => {
                let modulus = node[1].signed();
                let constant = self.add(&node[2], modulus)?;
                if self.is_no_multiple(constant, modulus) {
                    Ok(Vec::new())
                } else {
                    Err("not-closed")
                }
            }
            "split" => {
                let (terms, constant) = (node[1].terms(), node[2].signed());
                for (variable, _) in &terms {
                    below(*variable, self.sum.len())?;
                }
                let less = terms.iter().map(|(at, by)| (*at, -by)).collect();
                let zero = vec![Zero(Row(terms.clone(), constant))];
                Ok(vec![vec![AtLeast(Row(terms, constant - 1))], zero, vec![AtLeast(Row(less, -constant - 1))]])
            }
            "present" => {
                let p = below(node[1].number(), self.leaf.states)?;
                let count = |q: usize, constant| Row(vec![(inputs + q, 1)], constant);
                let meets = |q: &usize| self.meets[p * self.leaf.states + q];
                let mut one = vec![AtLeast(count(p, -1))];
                one.extend((0..self.leaf.states).filter(|q| *q != p && meets(q)).map(|q| Zero(count(q, 0))));
                one.extend(meets(&p).then(|| Zero(count(p, -1))));
                Ok(vec![vec![Zero(count(p, 0))], one])
            }
            "twin" => {
                let p = below(node[1].number(), self.leaf.states)?;
                let meets = self.meets[p * self.leaf.states + p];
                if meets {
                    Ok(vec![vec![AtLeast(Row(vec![(inputs + p, -1)], 1))]])
                } else {
                    Err("no-twin")
                }
            }
            "open" => match &self.facts[below(node[1].number(), self.facts.len())?] {
                Is(pred, value) => Ok(opened(pred, *value)),
                _ => Err("not-open"),
            },
            word => {
                let set = node[1].numbers();
                for state in &set {
                    below(*state, self.leaf.states)?;
                }
                Ok(self.set_cases(&set, word == "trap"))
            }
        }
    }

    /// The cases of a trap, or of a siphon.
    fn set_cases(&self, set: &[usize], is_trap: bool) -> Vec<Vec<Fact<'a>>> {
        let (leaf, inputs) = (self.leaf, self.leaf.input.len());
        let mut is_in = vec![false; leaf.states];
        set.iter().for_each(|q| is_in[*q] = true);
        let (mut first, mut none) = (Vec::new(), Vec::new());
        for (t, [p, q, r, s]) in leaf.moves.iter().enumerate() {
            let (takes, puts) = (is_in[*p] || is_in[*q], is_in[*r] || is_in[*s]);
            let (breaks, never) = if is_trap { (takes && !puts, puts) } else { (puts && !takes, takes) };
            let variable = (inputs + leaf.states + t, 1);
            first.extend(breaks.then_some(variable));
            none.extend(never.then(|| Zero(Row(vec![variable], 0))));
        }
        let starts: Vec<(usize, i64)> = (0..inputs).filter(|i| is_in[leaf.input[*i]]).map(|i| (i, 1)).collect();
        let helpers = leaf.helpers.iter().filter(|q| is_in[**q]).count() as i64;
        let ends = |constant| Row(set.iter().map(|q| (inputs + q, 1)).collect(), constant);
        let first = vec![AtLeast(Row(first, -1))];
        if !is_trap {
            none.push(Zero(ends(0)));
            return vec![first, vec![AtLeast(Row(starts, helpers - 1))], none];
        }
        none.extend(starts.into_iter().map(|start| Zero(Row(vec![start], 0))));
        none.push(Zero(ends(0)));
        none.extend((helpers > 0).then(|| Zero(Row(Vec::new(), helpers))));
        vec![first, none, vec![AtLeast(ends(-1))]]
    }

    /// Adds up facts, and gives the constant: equations, and inequalities or what the modulus divides.
    fn add(&mut self, terms: &Value, modulus: i64) -> Result<i128, &'static str> {
        let terms = terms.terms();
        if terms.iter().any(|(fact, _)| self.facts.len() <= *fact) {
            return Err("bad-index");
        }
        self.sum.fill(0);
        let mut constant = 0;
        for (fact, by) in terms {
            let row = match &self.facts[fact] {
                Zero(row) => row,
                AtLeast(row) if modulus == 0 && by >= 0 => row,
                Divides(m, row) if *m == modulus => row,
                _ => return Err("not-closed"),
            };
            constant += i128::from(row.1) * i128::from(by);
            for (at, coef) in &row.0 {
                self.sum[*at] += i128::from(*coef) * i128::from(by);
            }
        }
        Ok(constant)
    }

    fn is_no_multiple(&self, constant: i128, modulus: i64) -> bool {
        let m = i128::from(modulus);
        let divides = |sum: &[i128]| sum.iter().all(|coef| coef % m == 0);
        if divides(&self.sum) && constant % m != 0 {
            return true;
        }
        self.facts.iter().any(|fact| match fact {
            DividesNot(other, row) if *other == modulus => {
                let mut sum = self.sum.clone();
                row.0.iter().for_each(|(at, coef)| sum[*at] -= i128::from(*coef));
                divides(&sum) && (constant - i128::from(row.1)) % m == 0
            }
            _ => false,
        })
    }
}

fn opened(pred: &Pred, value: bool) -> Vec<Vec<Fact<'_>>> {
    let sum = |coefs: &[i64], sign: i64| coefs.iter().enumerate().map(|(i, coef)| (i, sign * coef)).collect();
    match pred {
        Pred::Less(coefs, c) if value => vec![vec![AtLeast(Row(sum(coefs, -1), c - 1))]],
        Pred::Less(coefs, c) => vec![vec![AtLeast(Row(sum(coefs, 1), -c))]],
        Pred::Same(coefs, r, m) if value => vec![vec![Divides(*m, Row(sum(coefs, 1), -r))]],
        Pred::Same(coefs, r, m) => vec![vec![DividesNot(*m, Row(sum(coefs, 1), -r))]],
        Pred::Not(p) => vec![vec![Is(p, !value)]],
        Pred::And(p, q) if value => vec![vec![Is(p, value), Is(q, value)]],
        Pred::Or(p, q) if !value => vec![vec![Is(p, value), Is(q, value)]],
        Pred::And(p, q) | Pred::Or(p, q) => vec![vec![Is(p, value)], vec![Is(q, value)]],
    }
}

/// The leaves' predicates in the places of their numbers.
fn combined(items: &[Value], preds: &[Pred]) -> Pred {
    let mut waiting: Vec<Pred> = Vec::new();
    for item in items {
        let pred = match item {
            Value::Number(leaf) => preds[*leaf as usize].clone(),
            word => {
                let last = Box::new(waiting.pop().unwrap());
                match word.text() {
                    "not" => Pred::Not(last),
                    "and" => Pred::And(Box::new(waiting.pop().unwrap()), last),
                    _ => Pred::Or(Box::new(waiting.pop().unwrap()), last),
                }
            }
        };
        waiting.push(pred);
    }
    waiting.pop().unwrap()
}

fn check(bundle: &Value) -> Result<i64, String> {
    let net = &bundle["net"];
    let read = |text: &Value| Reader { bytes: text.text().as_bytes(), at: 0 }.pred(net["vars"].list());
    let (mut bound, mut preds) = (0, Vec::new());
    for (i, (leaf, part)) in net["leaves"].list().iter().zip(bundle["proof"].list()).enumerate() {
        let leaf = Leaf::of(leaf, net["format"].signed());
        let pred = read(&part["pred"]);
        let layers = leaf.check_layers(part["layers"].list());
        bound += layers.map_err(|why| format!("leaf {i} layers {why}"))?;
        for value in [true, false] {
            let nodes = part[if value { "true" } else { "false" }].list();
            let mut walk = Walk::new(&leaf, &pred, value, nodes);
            walk.close(0).map_err(|why| format!("leaf {i} {value} {why}"))?;
            if walk.at < nodes.len() {
                return Err(format!("leaf {i} {value} {} rest", walk.at));
            }
        }
        preds.push(pred);
    }
    let whole = combined(net["combine"].list(), &preds) == read(&bundle["pred"]);
    if whole {
        Ok(bound)
    } else {
        Err("predicate".to_string())
    }
}

fn main() {
    let mut bytes = Vec::new();
    std::io::stdin().read_to_end(&mut bytes).unwrap();
    match check(&Reader { bytes: &bytes, at: 0 }.value()) {
        Ok(bound) => println!("certified {bound}"),
        Err(why) => println!("rejected {why}"),
    }
}
