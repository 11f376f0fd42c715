//! The forms that the lines of sheets had, told from their text.

use crate::counts::{Count, named};

/// Event n, choice c, tried rung t, then OFDM refused, ended, begun; or a refusal. No other is possible: a try that
/// began runs, and where one has ended and one runs, that one began.
const LINES: [&str; 14] = [
    "n c - 0 0 0",
    "n c - 0 1 0",
    "n c - 1 0 0",
    "n c - 1 1 0",
    "n c t 0 0 0",
    "n c t 0 0 1",
    "n c t 0 1 1",
    "n c t 1 0 0",
    "n c t 1 0 1",
    "n c t 1 1 1",
    "n refused 6",
    "n refused 7",
    "n refused 8",
    "n refused 9",
];
const DIGITS: [&str; 8] = [
    "n of 1 digit",
    "n of 2 digits",
    "n of 3 digits",
    "n of 4 digits",
    "c of 1 digit",
    "c of 2 digits",
    "t of 1 digit",
    "t of 2 digits",
];

/// How often lines had each form, and their numbers each length.
#[derive(Default)]
pub struct Forms {
    lines: [u64; LINES.len()],
    digits: [u64; DIGITS.len()],
}

impl Forms {
    pub fn sheet(&mut self, sheet: &str) {
        sheet.lines().for_each(|line| self.line(line));
    }

    fn line(&mut self, line: &str) {
        let fields: Vec<&str> = line.split(' ').collect();
        self.digits[fields[0].len() - 1] += 1;
        let form = match fields[1..] {
            ["refused", number] => format!("n refused {number}"),
            [choice, "-", ofdm, ended, begun] => {
                self.digits[3 + choice.len()] += 1;
                format!("n c - {ofdm} {ended} {begun}")
            }
            [choice, tried, ofdm, ended, begun] => {
                self.digits[3 + choice.len()] += 1;
                self.digits[5 + tried.len()] += 1;
                format!("n c t {ofdm} {ended} {begun}")
            }
            _ => line.to_owned(),
        };
        let known = LINES.iter().position(|known| *known == form);
        let at = known.unwrap_or_else(|| panic!("no line of a sheet has this form: {line}"));
        self.lines[at] += 1;
    }

    pub fn counts(&self) -> Vec<Count> {
        let mut all = named(&LINES, &self.lines);
        all.extend(named(&DIGITS, &self.digits));
        all
    }
}

#[cfg(test)]
mod tests {
    use super::*;

    #[test]
    fn lines_of_a_sheet() {
        let mut forms = Forms::default();
        forms.sheet("1 19 - 0 0 0\n10 0 1 0 0 1\n100 2 11 1 1 1\n1000 refused 8\n");
        let mut lines = [0; LINES.len()];
        [0, 5, 9, 12]
            .into_iter()
            .for_each(|at: usize| lines[at] += 1);
        assert_eq!(forms.lines, lines);
        assert_eq!(forms.digits, [1, 1, 1, 1, 2, 1, 1, 1]);
    }

    #[test]
    #[should_panic(expected = "no line of a sheet")]
    fn a_try_that_began_runs() {
        Forms::default().sheet("1 0 - 0 0 1\n");
    }
}
