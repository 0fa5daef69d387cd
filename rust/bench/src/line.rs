//! A line of the table: one call, timed in one run or put together from several.
use crate::measure::measure;

/// One call in one run. The times are nanoseconds a call: the core's, its peer's
/// and the peer's with SIMD, as far as there are peers. None: the answers differ.
pub struct Line {
    pub name: String,
    pub peer: String,
    pub mark: Option<f64>,
    pub times: Vec<f64>,
}

impl Line {
    pub fn new(name: impl Into<String>, peer: &str, mark: Option<f64>) -> Self {
        Self { name: name.into(), peer: peer.into(), mark, times: Vec::new() }
    }
    /// Timed; a run makes `each` calls.
    pub fn timed<I: ?Sized, R, const N: usize>(
        mut self,
        runs: [fn(&I) -> R; N],
        input: &I,
        rounds: usize,
        each: usize,
    ) -> Self {
        self.times = measure(runs, input, rounds.max(10)).map(|t| t / each as f64).into();
        self
    }
    /// The line as a run writes it for the process that started it.
    pub fn written(&self) -> String {
        let mark = self.mark.map_or("-".into(), |m| m.to_string());
        let times: Vec<String> = self.times.iter().map(|t| t.to_string()).collect();
        format!("{}\t{}\t{mark}\t{}", self.name, self.peer, times.join(" "))
    }
    pub fn read(text: &str) -> Option<Self> {
        let mut parts = text.split('\t');
        let mut line = Self::new(parts.next()?, parts.next()?, None);
        line.mark = parts.next()?.parse().ok();
        line.times = parts.next()?.split(' ').filter_map(|t| t.parse().ok()).collect();
        Some(line)
    }
}

/// One call over all runs: the medians of its times, and the sorted ratios of its
/// peer's time to the core's.
pub struct Row {
    pub line: Line,
    pub ratios: Vec<f64>,
}

fn sorted(numbers: impl Iterator<Item = f64>) -> Vec<f64> {
    let mut numbers: Vec<f64> = numbers.collect();
    numbers.sort_unstable_by(f64::total_cmp);
    numbers
}

fn median(sorted: &[f64]) -> f64 {
    (sorted[(sorted.len() - 1) / 2] + sorted[sorted.len() / 2]) / 2.0
}

impl Row {
    /// The same line of all runs.
    fn of(lines: &[&Line]) -> Self {
        let first = lines[0];
        let mut line = Line::new(&*first.name, &first.peer, first.mark);
        if lines.iter().all(|l| !l.times.is_empty()) {
            let time = |k: usize| median(&sorted(lines.iter().map(|l| l.times[k])));
            line.times = (0..first.times.len()).map(time).collect();
        }
        let peers = lines.iter().filter(|l| l.times.len() > 1);
        Self { line, ratios: sorted(peers.map(|l| l.times[1] / l.times[0])) }
    }
    pub fn of_runs(runs: &[Vec<Line>]) -> Vec<Self> {
        let count = runs.iter().map(Vec::len).min().unwrap_or(0);
        (0..count).map(|i| Self::of(&runs.iter().map(|r| &r[i]).collect::<Vec<_>>())).collect()
    }
    pub fn differs(&self) -> bool {
        self.line.times.is_empty()
    }
    /// The peer's time divided by the core's: above 1 the core is faster.
    pub fn ratio(&self) -> Option<f64> {
        (!self.ratios.is_empty()).then(|| median(&self.ratios))
    }
    /// The least of the ratios.
    pub fn least(&self) -> Option<f64> {
        self.ratios.first().copied()
    }
    /// Whether the mark is reached in every run, if there is one.
    pub fn reached(&self) -> Option<bool> {
        let mark = self.line.mark?;
        Some(self.least().is_some_and(|r| r >= mark))
    }
}
