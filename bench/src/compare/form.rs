//! Forms as sets of terms joined by exclusive or; bit k is the term of the parameters that are k's one-bits.

/// A form over so many parameters, in as many words as its 2^m bits need.
#[derive(Clone, PartialEq)]
pub struct Form {
    words: Vec<u64>,
}

/// How many words the bits of a form over m parameters fill.
fn length(parameters: usize) -> usize {
    (1usize << parameters).div_ceil(64)
}

impl Form {
    pub fn constant(parameters: usize, value: bool) -> Form {
        let mut words = vec![0; length(parameters)];
        words[0] = value as u64;
        Form { words }
    }

    pub fn parameter(parameters: usize, number: usize) -> Form {
        let mut form = Form::constant(parameters, false);
        form.toggle(1 << number);
        form
    }

    /// The form that a row of the area holds.
    pub fn from_row(parameters: usize, row: &[u64]) -> Form {
        Form {
            words: row[..length(parameters)].to_vec(),
        }
    }

    pub fn words(&self) -> &[u64] {
        &self.words
    }

    /// Which constant the form is, if any.
    pub fn which_constant(&self) -> Option<bool> {
        let rest = self.words[1..].iter().all(|word| *word == 0);
        (rest && self.words[0] <= 1).then_some(self.words[0] == 1)
    }

    fn toggle(&mut self, term: usize) {
        self.words[term / 64] ^= 1 << (term % 64);
    }

    /// The terms, the lowest first.
    fn terms(&self) -> Vec<usize> {
        let mut terms = Vec::new();
        for (place, word) in self.words.iter().enumerate() {
            let mut rest = *word;
            while rest != 0 {
                terms.push(64 * place + rest.trailing_zeros() as usize);
                rest &= rest - 1;
            }
        }
        terms
    }

    pub fn xor(&self, other: &Form) -> Form {
        Form {
            words: self
                .words
                .iter()
                .zip(&other.words)
                .map(|(one, two)| one ^ two)
                .collect(),
        }
    }

    /// Every term joined with every term; equal ones cancel in pairs.
    pub fn and(&self, other: &Form) -> Form {
        let mut form = Form {
            words: vec![0; self.words.len()],
        };
        let others = other.terms();
        for one in self.terms() {
            for two in &others {
                form.toggle(one | two);
            }
        }
        form
    }

    pub fn or(&self, other: &Form) -> Form {
        self.xor(other).xor(&self.and(other))
    }

    /// The form with rows put in for its parameters, all at once; it names no parameter past the rows.
    pub fn put_in(&self, rows: &[Form]) -> Form {
        sum(
            &self.terms(),
            rows,
            &Form {
                words: vec![0; self.words.len()],
            },
        )
    }
}

/// The sum of ascending terms that agree from the rows' number on, with rows put in below it.
fn sum(terms: &[usize], rows: &[Form], none: &Form) -> Form {
    if terms.is_empty() {
        return none.clone();
    }
    let Some((row, lower)) = rows.split_last() else {
        let mut form = none.clone();
        form.toggle(0);
        return form;
    };
    let (without, with) = terms.split_at(terms.partition_point(|term| term >> lower.len() & 1 == 0));
    let part = sum(without, lower, none);
    if with.is_empty() {
        return part;
    }
    part.xor(&row.and(&sum(with, lower, none)))
}
