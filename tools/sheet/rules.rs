// Which rules a listener has: every one, or every one but those that `--without` names.

use super::card::{Rule, ONE_RULE, RULES};
use super::words::quoted;

// A byte of eight switches. The lowest bit is for rule 1.
#[derive(Clone, Copy, Debug, PartialEq)]
pub struct Rules(u8);

fn switch(rule: Rule) -> u8 {
    1 << rule as u8
}

impl Rules {
    pub const EVERY: Rules = Rules(u8::MAX);

    // Every rule but those of a list of words, with commas between them.
    pub fn without(list: &str) -> Result<Rules, String> {
        let mut rules = Rules::EVERY;
        for word in list.split(',') {
            let rule = Rule::of(word).ok_or_else(|| format!("unknown rule {}, expected {ONE_RULE}", quoted(word)))?;
            if !rules.have(rule) {
                return Err(format!("{word} stands there twice, expected each rule once"));
            }
            rules.0 &= !switch(rule);
        }
        Ok(rules)
    }

    pub fn byte(self) -> u8 {
        self.0
    }

    pub fn have(self, rule: Rule) -> bool {
        self.0 & switch(rule) != 0
    }

    // The words of the rules that the listener is without, in the order of the rules.
    pub fn lacking(self) -> Vec<String> {
        RULES.iter().filter(|(_, rule)| !self.have(*rule)).map(|(word, _)| word.to_string()).collect()
    }
}
