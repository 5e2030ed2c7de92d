//! How many answers were compared, and how many of them differ.

use crate::layout::grouped;
use crate::Shown;
use std::fmt::Debug;
use std::io::Write;

#[derive(Debug, Default)]
pub struct Compared {
    pub answers: usize,
    pub wrong: usize,
}

impl Compared {
    /// Compares an answer with the expected one. Where they differ, both are printed to stderr.
    pub fn compare<T: PartialEq + Debug>(&mut self, about: &str, said: &T, expected: &T) {
        self.answers += 1;
        if said != expected {
            self.wrong += 1;
            eprintln!("{about}: the answer is {said:?}, and {expected:?} was expected");
        }
    }

    /// How many answers were compared, in a line.
    pub fn show(&self, out: &mut impl Write) -> Shown {
        let answers = grouped(self.answers);
        write!(
            out,
            "\n{answers} answers were compared with a ledger and a checker written apart: "
        )?;
        match self.wrong {
            0 => writeln!(out, "none differs.")?,
            1 => writeln!(out, "1 differs.")?,
            wrong => writeln!(out, "{} differ.", grouped(wrong))?,
        }
        Ok(())
    }
}

#[cfg(test)]
mod tests {
    use super::Compared;

    #[test]
    fn a_difference_is_counted() {
        let mut compared = Compared::default();
        compared.compare("the same", &Ok::<u8, u8>(1), &Ok(1));
        compared.compare("another", &Ok::<u8, u8>(1), &Err(1));
        assert_eq!((compared.answers, compared.wrong), (2, 1));
    }
}
