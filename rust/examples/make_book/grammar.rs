//! Grammars as text, one production to a line:
//!
//! ```text
//! # a comment
//! terminals: number plus
//! sum -> sum plus number
//! sum -> number
//! ```
//!
//! Terminals are numbered from 1 as listed; 0 is the end mark. The first left side is the start
//! symbol. The line `conflicts: shift` lets a shift win over reductions.

#[derive(Clone, Copy, Debug, PartialEq, Eq)]
pub enum Symbol {
    Terminal(usize),
    Nonterminal(usize),
}

#[derive(Clone, Debug)]
pub struct Rule {
    pub left: usize,
    pub right: Vec<Symbol>,
}

#[derive(Clone, Debug, Default)]
pub struct Grammar {
    /// The end mark first.
    pub terminals: Vec<String>,
    /// The start symbol first.
    pub nonterminals: Vec<String>,
    pub rules: Vec<Rule>,
    pub shift_wins: bool,
}

impl Grammar {
    pub fn parse(text: &str) -> Result<Grammar, String> {
        let mut grammar = Grammar {
            terminals: vec!["end".to_string()],
            ..Grammar::default()
        };
        let lines: Vec<&str> = text.lines().map(without_comment).collect();
        for line in &lines {
            grammar.declare(line)?;
        }
        for line in &lines {
            grammar.add_rule(line)?;
        }
        if grammar.rules.is_empty() {
            return Err("there is no production".to_string());
        }
        Ok(grammar)
    }

    /// Takes in what a line declares; productions declare their left side.
    fn declare(&mut self, line: &str) -> Result<(), String> {
        if let Some(names) = line.strip_prefix("terminals:") {
            for name in names.split_whitespace() {
                if self.terminals.iter().any(|known| known == name) {
                    return Err(format!("terminal {name} is listed twice"));
                }
                self.terminals.push(name.to_string());
            }
        } else if let Some(rule) = line.strip_prefix("conflicts:") {
            if rule.trim() != "shift" {
                return Err(format!("unknown rule for conflicts: {rule}"));
            }
            self.shift_wins = true;
        } else if let Some((left, _)) = line.split_once("->") {
            let left = left.trim();
            if !self.nonterminals.iter().any(|known| known == left) {
                self.nonterminals.push(left.to_string());
            }
        } else if !line.is_empty() {
            return Err(format!("not understood: {line}"));
        }
        Ok(())
    }

    fn add_rule(&mut self, line: &str) -> Result<(), String> {
        let Some((left, right)) = line.split_once("->") else {
            return Ok(());
        };
        let Symbol::Nonterminal(left) = self.symbol(left.trim())? else {
            return Err(format!("a terminal on the left: {line}"));
        };
        let right = right.split_whitespace().map(|name| self.symbol(name));
        let right = right.collect::<Result<_, _>>()?;
        self.rules.push(Rule { left, right });
        Ok(())
    }

    fn symbol(&self, name: &str) -> Result<Symbol, String> {
        if let Some(number) = self
            .terminals
            .iter()
            .skip(1)
            .position(|known| known == name)
        {
            return Ok(Symbol::Terminal(number + 1));
        }
        match self.nonterminals.iter().position(|known| known == name) {
            Some(number) => Ok(Symbol::Nonterminal(number)),
            None => Err(format!("{name} is neither a terminal nor a left side")),
        }
    }
}

fn without_comment(line: &str) -> &str {
    line.split('#').next().unwrap_or("").trim()
}
