//! Measuring: the best time of each program, and how far the ratio spreads
//! over repetitions.

use std::time::{Duration, Instant};

/// How many repetitions there are, how many rounds each program has in one, and
/// how long a round takes the second program at least.
const REPETITIONS: usize = 5;
const ROUNDS: usize = 8;
const ROUND: Duration = Duration::from_millis(1);

/// How it is measured.
pub const HOW: &str = "ratio: best time of the proved call over best time of the second program, \
                       rounds alternating in one process; best of 40 rounds of at least 1 ms; \
                       spread: least and greatest ratio of 5 repetitions of 8 rounds";

/// The best times of both programs for one job, and the ratio of each
/// repetition.
pub struct Measured {
    proved: Duration,
    second: Duration,
    /// How many things were done in such a time.
    times: u64,
    ratios: Vec<f64>,
}

impl Measured {
    /// Measures two jobs, which give the same number.
    pub fn of(
        name: &str,
        mut proved: impl FnMut() -> u64,
        mut second: impl FnMut() -> u64,
    ) -> Measured {
        let repeats = repeats_of(&mut second);
        let mut all = Measured {
            proved: Duration::MAX,
            second: Duration::MAX,
            times: repeats,
            ratios: Vec::new(),
        };
        for _ in 0..REPETITIONS {
            let mut best = [Duration::MAX; 2];
            for _ in 0..ROUNDS {
                let (proved_time, proved_sum) = round(&mut proved, repeats);
                let (second_time, second_sum) = round(&mut second, repeats);
                assert_eq!(proved_sum, second_sum, "{name}: the answers differ");
                best = [best[0].min(proved_time), best[1].min(second_time)];
            }
            all.ratios.push(ratio_of(best[0], best[1]));
            all.proved = all.proved.min(best[0]);
            all.second = all.second.min(best[1]);
        }
        all
    }

    /// The same, with its name.
    pub fn named(
        name: &str,
        proved: impl FnMut() -> u64,
        second: impl FnMut() -> u64,
    ) -> (String, Measured) {
        (name.to_string(), Measured::of(name, proved, second))
    }

    /// The same where a job does so many things.
    pub fn each(self, things: usize) -> Measured {
        let times = self.times * things as u64;
        Measured { times, ..self }
    }

    /// The best time of the proved call over that of the second program.
    pub fn ratio(&self) -> f64 {
        ratio_of(self.proved, self.second)
    }

    /// The least and the greatest ratio of a repetition.
    pub fn ends(&self) -> [f64; 2] {
        let least = self.ratios.iter().copied().fold(f64::INFINITY, f64::min);
        let greatest = self.ratios.iter().copied().fold(0.0, f64::max);
        [least, greatest]
    }

    pub fn spread(&self) -> String {
        let [least, greatest] = self.ends();
        format!("{least:.2} to {greatest:.2}")
    }

    /// The ratio and its spread.
    pub fn ratios(&self) -> String {
        format!("{:.2}, {}", self.ratio(), self.spread())
    }

    pub fn proved_us(&self) -> f64 {
        self.proved.as_secs_f64() * 1e6 / self.times as f64
    }

    pub fn second_us(&self) -> f64 {
        self.second.as_secs_f64() * 1e6 / self.times as f64
    }
}

fn ratio_of(proved: Duration, second: Duration) -> f64 {
    proved.as_secs_f64() / second.as_secs_f64()
}

/// How often the job is done in a round.
fn repeats_of(job: &mut impl FnMut() -> u64) -> u64 {
    let mut repeats = 1;
    while round(job, repeats).0 < ROUND {
        repeats *= 2;
    }
    repeats
}

/// The time of a round, and the sum of what its jobs gave.
fn round(job: &mut impl FnMut() -> u64, repeats: u64) -> (Duration, u64) {
    let mut sum: u64 = 0;
    let begin = Instant::now();
    for _ in 0..repeats {
        sum = sum.wrapping_add(job());
    }
    (begin.elapsed(), sum)
}
