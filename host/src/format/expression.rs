//! Numbers in the text form: decimals, the four operations, brackets and
//! sqrt(..), each operation rounded once; 0x and 16 hex digits give a float's
//! bits, for values that have no decimal form.

use crate::format::hints;
use crate::format::quote::quoted;

/// The value of an expression that fills the whole text.
pub fn evaluate(text: &str) -> Result<f64, String> {
    if let Some(bits) = text.strip_prefix("0x") {
        let exact = bits.len() == 16 && bits.bytes().all(|b| b.is_ascii_hexdigit());
        return match u64::from_str_radix(bits, 16) {
            Ok(bits) if exact => Ok(f64::from_bits(bits)),
            _ => Err(format!("{} is not 0x and 16 hex digits", quoted(text))),
        };
    }
    let mut parser = Parser {
        text,
        rest: text,
        depth: 0,
    };
    let value = parser.sum()?;
    match parser.peek() {
        None => Ok(value),
        Some(_) => Err(parser.unexpected()),
    }
}

/// Brackets and signs nest no deeper, so that no line can exhaust the stack.
const DEEPEST: usize = 100;

struct Parser<'a> {
    text: &'a str,
    rest: &'a str,
    depth: usize,
}

impl Parser<'_> {
    fn peek(&mut self) -> Option<char> {
        self.rest = self.rest.trim_start();
        self.rest.chars().next()
    }

    /// Moves on if that is what stands here.
    fn takes(&mut self, wanted: &str) -> bool {
        self.peek();
        match self.rest.strip_prefix(wanted) {
            Some(behind) => {
                self.rest = behind;
                true
            }
            None => false,
        }
    }

    fn unexpected(&mut self) -> String {
        let text = quoted(self.text);
        match (self.peek(), hints::of_number(self.rest)) {
            (_, Some(hint)) => format!("{text} is not a number: {hint}"),
            (Some(letter), _) => {
                format!("{text} is not a number: '{letter}' does not belong there")
            }
            (None, _) => format!("{text} is not a number: it ends too early"),
        }
    }

    fn sum(&mut self) -> Result<f64, String> {
        let mut value = self.product()?;
        loop {
            if self.takes("+") {
                value += self.product()?;
            } else if self.takes("-") {
                value -= self.product()?;
            } else {
                return Ok(value);
            }
        }
    }

    fn product(&mut self) -> Result<f64, String> {
        let mut value = self.factor()?;
        loop {
            if self.takes("*") {
                value *= self.factor()?;
            } else if self.takes("/") {
                value /= self.factor()?;
            } else {
                return Ok(value);
            }
        }
    }

    fn factor(&mut self) -> Result<f64, String> {
        self.depth += 1;
        if self.depth > DEEPEST {
            return Err(format!("{} nests too deeply", quoted(self.text)));
        }
        let value = if self.takes("-") {
            -self.factor()?
        } else if self.takes("+") {
            self.factor()?
        } else if self.takes("sqrt(") {
            self.closed()?.sqrt()
        } else if self.takes("(") {
            self.closed()?
        } else {
            self.decimal()?
        };
        self.depth -= 1;
        Ok(value)
    }

    fn closed(&mut self) -> Result<f64, String> {
        let value = self.sum()?;
        match self.takes(")") {
            true => Ok(value),
            false => Err(self.unexpected()),
        }
    }

    /// Digits, a point, and an exponent, whose sign belongs to the number.
    fn decimal(&mut self) -> Result<f64, String> {
        if !self.peek().is_some_and(|c| c.is_ascii_digit() || c == '.') {
            return Err(self.unexpected());
        }
        let mut before = ' ';
        let belongs = |letter: char| {
            let sign = matches!(letter, '+' | '-') && matches!(before, 'e' | 'E');
            before = letter;
            sign || letter.is_ascii_digit() || matches!(letter, '.' | 'e' | 'E')
        };
        let digits = self.rest.trim_start_matches(belongs);
        let (number, behind) = self.rest.split_at(self.rest.len() - digits.len());
        let value = number.parse().map_err(|_| self.no_decimal(number))?;
        self.rest = behind;
        Ok(value)
    }

    fn no_decimal(&self, number: &str) -> String {
        let why = if number.matches('.').count() > 1 {
            "it has more than one decimal point"
        } else if number.contains(['e', 'E']) {
            "its exponent is no whole number"
        } else {
            "it has no digit"
        };
        format!("{} is not a number: {why}", quoted(self.text))
    }
}
