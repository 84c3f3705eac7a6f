//! Reads JSON, and the texts of predicates. It panics where they are malformed.

use std::ops::Index;

pub enum Value {
    Bool(bool),
    Number(i64),
    Text(String),
    List(Vec<Value>),
    Object(Vec<(String, Value)>),
}

impl Index<&str> for Value {
    type Output = Value;

    fn index(&self, name: &str) -> &Value {
        let Value::Object(members) = self else { panic!("no object with {name}") };
        members.iter().rev().find(|(key, _)| key == name).map(|(_, value)| value).unwrap()
    }
}

impl Value {
    pub fn list(&self) -> &[Value] {
        if let Value::List(items) = self {
            items
        } else {
            panic!("no list")
        }
    }

    pub fn text(&self) -> &str {
        if let Value::Text(text) = self {
            text
        } else {
            panic!("no text")
        }
    }

    pub fn signed(&self) -> i64 {
        if let Value::Number(number) = self {
            *number
        } else {
            panic!("no number")
        }
    }

    pub fn number(&self) -> usize {
        self.signed().try_into().unwrap()
    }

    pub fn numbers(&self) -> Vec<usize> {
        self.list().iter().map(Value::number).collect()
    }

    pub fn terms(&self) -> Vec<(usize, i64)> {
        self.list().iter().map(|term| (term.list()[0].number(), term.list()[1].signed())).collect()
    }
}

/// Reads JSON, and the texts of predicates.
pub struct Reader<'a> {
    pub bytes: &'a [u8],
    pub at: usize,
}

impl Reader<'_> {
    fn peek(&mut self) -> u8 {
        self.at += self.bytes[self.at..].iter().take_while(|byte| byte.is_ascii_whitespace()).count();
        *self.bytes.get(self.at).unwrap_or(&0)
    }

    fn takes(&mut self, word: &str) -> bool {
        self.peek();
        let is_next = self.bytes[self.at..].starts_with(word.as_bytes());
        self.at += if is_next { word.len() } else { 0 };
        is_next
    }

    fn run_of(&mut self, is_part: impl Fn(u8) -> bool) -> &str {
        self.peek();
        let start = self.at;
        self.at += self.bytes[start..].iter().take_while(|byte| is_part(**byte)).count();
        std::str::from_utf8(&self.bytes[start..self.at]).unwrap()
    }

    fn number(&mut self) -> i64 {
        let sign = if self.takes("-") { -1 } else { 1 };
        sign * self.run_of(|byte| byte.is_ascii_digit()).parse::<i64>().unwrap()
    }

    fn items<T>(&mut self, close: &str, item: impl Fn(&mut Self) -> T) -> Vec<T> {
        let mut items = Vec::new();
        while !self.takes(close) {
            assert!(items.is_empty() || self.takes(","));
            items.push(item(self));
        }
        items
    }

    /// A string without escapes.
    fn string(&mut self) -> String {
        assert!(self.takes("\""));
        let text = self.run_of(|byte| byte != b'"' && byte != b'\\').to_string();
        assert!(self.takes("\""));
        text
    }

    pub fn value(&mut self) -> Value {
        match self.peek() {
            b'"' => Value::Text(self.string()),
            b't' | b'f' => Value::Bool(self.run_of(|byte| byte.is_ascii_lowercase()) == "true"),
            _ if self.takes("[") => Value::List(self.items("]", Self::value)),
            _ if self.takes("{") => Value::Object(self.items("}", |reader| {
                let name = reader.string();
                assert!(reader.takes(":"));
                (name, reader.value())
            })),
            _ => Value::Number(self.number()),
        }
    }

    pub fn pred(&mut self, vars: &[Value]) -> Pred {
        let mut pred = self.conjunction(vars);
        while self.takes("||") {
            pred = Pred::Or(Box::new(pred), Box::new(self.conjunction(vars)));
        }
        pred
    }

    fn conjunction(&mut self, vars: &[Value]) -> Pred {
        let mut pred = self.unit(vars);
        while self.takes("&&") {
            pred = Pred::And(Box::new(pred), Box::new(self.unit(vars)));
        }
        pred
    }

    fn unit(&mut self, vars: &[Value]) -> Pred {
        if self.takes("!") {
            return Pred::Not(Box::new(self.unit(vars)));
        }
        if self.takes("(") {
            let pred = self.pred(vars);
            assert!(self.takes(")"));
            return pred;
        }
        let sum = self.sum(vars);
        let word = ["<=", "<", ">=", ">", "!=", "="].into_iter().find(|word| self.takes(word)).unwrap();
        let bound = self.number();
        let below = |bound| Pred::Less(sum.clone(), bound);
        let above = |bound| Pred::Less(sum.iter().map(|coef| -coef).collect(), bound);
        match word {
            "<" => return below(bound),
            "<=" => return below(bound + 1),
            ">" => return above(-bound),
            ">=" => return above(1 - bound),
            _ => {}
        }
        let equal = if self.takes("mod") {
            let modulus = self.number();
            Pred::Same(sum, bound.rem_euclid(modulus), modulus)
        } else {
            Pred::And(Box::new(below(bound + 1)), Box::new(above(1 - bound)))
        };
        if word == "=" {
            equal
        } else {
            Pred::Not(Box::new(equal))
        }
    }

    fn sum(&mut self, vars: &[Value]) -> Vec<i64> {
        let mut coefs = vec![0; vars.len()];
        let mut sign = if self.takes("-") { -1 } else { 1 };
        loop {
            let mut coef = sign;
            if self.peek().is_ascii_digit() {
                coef *= self.number();
                assert!(self.takes("*"));
            }
            let name = self.run_of(|byte| byte.is_ascii_alphanumeric() || byte == b'_');
            coefs[vars.iter().position(|var| var.text() == name).unwrap()] += coef;
            sign = match self.peek() {
                b'+' => 1,
                b'-' => -1,
                _ => return coefs,
            };
            self.at += 1;
        }
    }
}

#[derive(Clone, PartialEq)]
pub enum Pred {
    Less(Vec<i64>, i64),
    /// The sum has this rest by this modulus.
    Same(Vec<i64>, i64, i64),
    Not(Box<Pred>),
    And(Box<Pred>, Box<Pred>),
    Or(Box<Pred>, Box<Pred>),
}
