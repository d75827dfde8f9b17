//! How often each refusal was met.
use kotsghane::Refusal;

/// By number; 0 for none.
#[derive(Default)]
pub struct Tally([usize; 23]);

impl Tally {
    pub fn count<T>(&mut self, told: &Result<T, Refusal>) {
        let number = told.as_ref().err().map_or(0, Refusal::number);
        self.0[number as usize] += 1;
    }

    pub fn assert_all_from(&self, numbers: &[usize], least: usize) {
        for &n in numbers {
            assert!(self.0[n] >= least, "refusal {n} was met {} times", self.0[n]);
        }
    }
}
