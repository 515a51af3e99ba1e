// Values as words of a page.
use crate::page::Page;
use decimal_input::dec::Dec;
use step_problem::Bound;

impl Page {
    /// A number, as its digits and its exponent.
    pub fn number(&mut self, value: Dec) {
        let sign = if value.neg { "-" } else { "" };
        let (digits, exponent) = (value.digits, value.exp);
        self.word(format_args!("{sign}{digits}e{exponent}"));
    }

    pub fn numbers(&mut self, values: &[Dec]) {
        for value in values {
            self.number(*value);
        }
    }

    pub fn integers(&mut self, values: &[i64]) {
        for value in values {
            self.word(*value);
        }
    }

    /// A line of a word and the bounds of each cell.
    pub fn bounds(&mut self, word: &str, bounds: &[Bound]) {
        self.text(word);
        for bound in bounds {
            self.word(bound.low);
            self.word(bound.high);
        }
        self.end();
    }
}
