//! What was compared: a row for each call and stratum.

/// One more than the largest number of document 01.
const NUMBERS: usize = 11;

pub struct Row {
    call: &'static str,
    stratum: &'static str,
    wanted: u64,
    comparisons: u64,
    /// How often each number came back, by the number; 0 for an answer.
    came: [u64; NUMBERS],
    differences: u64,
    first: String,
}

impl Row {
    pub fn new(call: &'static str, stratum: &'static str, wanted: u64) -> Row {
        Row { call, stratum, wanted, comparisons: 0, came: [0; NUMBERS], differences: 0, first: String::new() }
    }

    /// One comparison; `said` is what to print of the first difference.
    pub fn compare(&mut self, number: u8, same: bool, said: impl FnOnce() -> String) {
        self.comparisons += 1;
        self.came[number as usize] += 1;
        if !same {
            self.differences += 1;
            if self.differences == 1 {
                self.first = said();
            }
        }
    }

    fn line(&self, numbers: &[usize]) -> String {
        let came: String = numbers.iter().map(|&n| format!(" {} |", self.came[n])).collect();
        format!("| {} | {} | {} |{came} {} |\n", self.call, self.stratum, self.comparisons, self.differences)
    }
}

#[derive(Default)]
pub struct Tally(Vec<Row>);

impl Tally {
    pub fn add(&mut self, row: Row) {
        eprintln!("{}, {} ..", row.call, row.stratum);
        self.0.push(row);
    }

    pub fn comparisons(&self, call: &str) -> u64 {
        self.0.iter().filter(|row| row.call == call).map(|row| row.comparisons).sum()
    }

    /// A row for each stratum, and their sum.
    pub fn table(&self) -> String {
        let numbers: Vec<usize> = (0..NUMBERS).filter(|&n| self.0.iter().any(|row| row.came[n] > 0)).collect();
        let heads: String = numbers.iter().map(|n| if *n == 0 { " answered |".into() } else { format!(" {n} |") }).collect();
        let lines: String = self.0.iter().map(|row| row.line(&numbers)).collect();
        let sum = |f: &dyn Fn(&Row) -> u64| self.0.iter().map(f).sum::<u64>();
        let came: String = numbers.iter().map(|&n| format!(" {} |", sum(&|row| row.came[n]))).collect();
        let all = format!("| all | {} | {} |{came} {} |\n", self.0.len(), sum(&|row| row.comparisons), sum(&|row| row.differences));
        format!("| call | stratum | comparisons |{heads} differences |\n|---|---|---|{}---|\n{lines}{all}", "---|".repeat(numbers.len()))
    }

    /// Each difference's first input, and each stratum that was not reached.
    pub fn faults(&self) -> Vec<String> {
        let mut faults = Vec::new();
        for row in &self.0 {
            let name = format!("{}, {}", row.call, row.stratum);
            if row.differences > 0 {
                faults.push(format!("{name}: {} differences, the first at {}", row.differences, row.first));
            }
            if row.comparisons < row.wanted {
                faults.push(format!("{name}: not reached, {} of {}", row.comparisons, row.wanted));
            }
        }
        faults
    }
}
