//! What compared texts say. Tests that draw schedules fail where the texts
//! say too little.

/// How many refusal numbers there are, 0 counted.
const NUMBERS: usize = 14;

/// How many schedules were accepted and refused, by number, and how many lines
/// the accepted ones have.
#[derive(Default)]
pub struct Said {
    accepted: u64,
    refused: [u64; NUMBERS],
    learnt_lines: u64,
    decided_lines: u64,
    refused_lines: u64,
}

impl Said {
    /// Counts what a text says.
    pub fn add(&mut self, text: &[u8]) {
        let text = String::from_utf8_lossy(text);
        if let Some(number) = text.strip_prefix("schedule refused ") {
            let number: usize = number.trim_end().parse().unwrap_or(0);
            self.refused[number.min(NUMBERS - 1)] += 1;
            return;
        }
        self.accepted += 1;
        for line in text.lines() {
            match line.split(' ').nth(1) {
                Some("learnt") => self.learnt_lines += 1,
                Some("decided") => self.decided_lines += 1,
                Some("refused") => self.refused_lines += 1,
                _ => {}
            }
        }
    }

    /// Fails where schedules were refused, or their runs learnt, decided or
    /// refused little.
    pub fn test_runs(&self) -> Result<(), String> {
        let refused: u64 = self.refused.iter().sum();
        let lines = [self.learnt_lines, self.decided_lines, self.refused_lines];
        if refused > 0 || lines.iter().any(|lines| *lines < self.accepted / 4) {
            return Err(format!(
                "{} schedules, {refused} more refused: \
                 {lines:?} lines say learnt, decided, refused",
                self.accepted
            ));
        }
        Ok(())
    }

    /// Fails where few schedules were accepted, or few refused with one of
    /// these numbers.
    pub fn test_answers(&self, least: u64, numbers: &[usize]) -> Result<(), String> {
        let is_few = |number: &usize| self.refused[*number] < least;
        if self.accepted < least || numbers.iter().any(is_few) {
            return Err(format!(
                "{} schedules were accepted, refused with 0 to 13 were {:?}",
                self.accepted, self.refused
            ));
        }
        Ok(())
    }
}
