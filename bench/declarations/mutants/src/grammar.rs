//! A slow reader: all readings of a list of signs by a grammar that is written as text, and how far some reading goes.
use std::collections::HashMap;

/// A form of the grammar. Its parts are numbers of forms.
enum Form {
    Sign(usize),
    /// The next sign, if there is one, is not this one.
    Not(usize),
    All(Vec<usize>),
    Any(Vec<usize>),
    Perhaps(usize),
    Many(usize),
    Named(usize),
}

/// The rules of a text in the form of `grammar.txt`.
pub struct Grammar {
    forms: Vec<Form>,
    signs: HashMap<String, usize>,
    /// The number of each rule by its name, and the form of each rule.
    rules: HashMap<String, usize>,
    bodies: Vec<Option<usize>>,
}

impl Grammar {
    /// The rules of a text. A word that is no name of a rule and begins with a capital is the name of a sign.
    ///
    /// # Panics
    ///
    /// If a rule has no body or two, or if a word is neither.
    pub fn new(text: &str) -> Grammar {
        let lines = text.lines().filter(|line| !line.starts_with('#'));
        let lines: Vec<_> = lines.filter_map(|line| line.split_once('=')).collect();
        let mut grammar = Grammar {
            forms: Vec::new(),
            signs: HashMap::new(),
            rules: HashMap::new(),
            bodies: vec![None; lines.len()],
        };
        for (number, (name, _)) in lines.iter().enumerate() {
            let before = grammar.rules.insert(name.trim().to_string(), number);
            assert!(before.is_none(), "two rules have the name {name}");
        }
        for (number, (_, body)) in lines.iter().enumerate() {
            let words = words(body);
            let (form, rest) = grammar.alternatives(&words);
            assert!(rest.is_empty(), "{rest:?} is left");
            grammar.bodies[number] = Some(form);
        }
        grammar
    }

    fn push(&mut self, form: Form) -> usize {
        self.forms.push(form);
        self.forms.len() - 1
    }

    fn sign(&mut self, name: &str) -> usize {
        assert!(name.starts_with(|first: char| first.is_ascii_uppercase()), "there is no rule {name}");
        let next = self.signs.len();
        *self.signs.entry(name.to_string()).or_insert(next)
    }

    fn alternatives<'a>(&mut self, mut words: &'a [&'a str]) -> (usize, &'a [&'a str]) {
        let (mut branches, mut sequence) = (Vec::new(), Vec::new());
        loop {
            let form = match words {
                [] | [")", ..] => break,
                ["|", rest @ ..] => {
                    branches.push(self.push(Form::All(std::mem::take(&mut sequence))));
                    words = rest;
                    continue;
                }
                ["!", name, rest @ ..] => {
                    words = rest;
                    let sign = self.sign(name);
                    self.push(Form::Not(sign))
                }
                ["(", rest @ ..] => {
                    let (form, rest) = self.alternatives(rest);
                    words = &rest[1..];
                    form
                }
                [name, rest @ ..] => {
                    words = rest;
                    match self.rules.get(*name) {
                        Some(&rule) => self.push(Form::Named(rule)),
                        None => {
                            let sign = self.sign(name);
                            self.push(Form::Sign(sign))
                        }
                    }
                }
            };
            let mut form = form;
            while let [mark @ ("?" | "*"), rest @ ..] = words {
                form = self.push(if *mark == "?" { Form::Perhaps(form) } else { Form::Many(form) });
                words = rest;
            }
            sequence.push(form);
        }
        branches.push(self.push(Form::All(sequence)));
        (self.push(Form::Any(branches)), words)
    }

    /// The number of a sign's name. A sign that no rule names has none.
    pub fn sign_number(&self, name: &str) -> Option<usize> {
        self.signs.get(name).copied()
    }

    /// How many signs the longest front has that some signs could complete to a reading of this rule, and whether all
    /// signs are such a reading. There may be 63 signs at most.
    pub fn read(&self, rule: &str, signs: &[Option<usize>]) -> (usize, bool) {
        assert!(signs.len() <= 63);
        let mut chart = Chart { grammar: self, signs, reached: 0, known: HashMap::new() };
        let ends = chart.rule(self.rules[rule], 0);
        let furthest = 63 - (chart.reached | ends).leading_zeros() as usize;
        (furthest, ends >> signs.len() & 1 == 1)
    }
}

fn words(body: &str) -> Vec<&str> {
    let mut words = Vec::new();
    for word in body.split_whitespace() {
        let mut word = word;
        while let Some(rest) = word.strip_prefix('!') {
            words.push("!");
            word = rest;
        }
        let name = word.trim_end_matches(['?', '*']);
        if !name.is_empty() {
            words.push(name);
        }
        words.extend(word[name.len()..].split("").filter(|mark| !mark.is_empty()));
    }
    words
}

/// The readings of one list of signs. A set of positions is a number with their bits.
struct Chart<'a> {
    grammar: &'a Grammar,
    signs: &'a [Option<usize>],
    /// The positions up to which some reading goes that wants more there.
    reached: u64,
    /// The ends of a rule from a position on.
    known: HashMap<(usize, usize), u64>,
}

impl Chart<'_> {
    fn rule(&mut self, rule: usize, at: usize) -> u64 {
        if let Some(&ends) = self.known.get(&(rule, at)) {
            return ends;
        }
        let ends = self.ends(self.grammar.bodies[rule].expect("each rule has a body"), at);
        self.known.insert((rule, at), ends);
        ends
    }

    /// Where the form ends from each of these positions on.
    fn from(&mut self, form: usize, starts: u64) -> u64 {
        let mut ends = 0;
        for at in 0..=self.signs.len() {
            if starts >> at & 1 == 1 {
                ends |= self.ends(form, at);
            }
        }
        ends
    }

    fn ends(&mut self, form: usize, at: usize) -> u64 {
        let grammar = self.grammar;
        match &grammar.forms[form] {
            Form::Sign(sign) => {
                self.reached |= 1 << at;
                let is_next = self.signs.get(at).is_some_and(|next| *next == Some(*sign));
                if is_next {
                    1 << (at + 1)
                } else {
                    0
                }
            }
            Form::Not(sign) => {
                self.reached |= 1 << at;
                let is_next = self.signs.get(at).is_some_and(|next| *next == Some(*sign));
                if is_next {
                    0
                } else {
                    1 << at
                }
            }
            Form::All(parts) => parts.iter().fold(1 << at, |starts, part| self.from(*part, starts)),
            Form::Any(branches) => branches.iter().fold(0, |ends, branch| ends | self.ends(*branch, at)),
            Form::Perhaps(part) => 1 << at | self.ends(*part, at),
            Form::Many(part) => {
                let (mut all, mut new) = (1 << at, 1 << at);
                while new != 0 {
                    new = self.from(*part, new) & !all;
                    all |= new;
                }
                all
            }
            Form::Named(rule) => self.rule(*rule, at),
        }
    }
}
