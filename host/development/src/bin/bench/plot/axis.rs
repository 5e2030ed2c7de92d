//! An axis from 0 on: which values have a line, and where on the picture a value lies.

pub struct Axis {
    max: f64,
    step: f64,
    first: f64,
    last: f64,
}

/// The most steps that an axis may have.
const STEPS: f64 = 10.0;

impl Axis {
    /// An axis that covers the values, from the place of 0 to the place of its last step.
    pub fn covering(values: impl Iterator<Item = f64>, first: f64, last: f64) -> Axis {
        let highest = values.fold(1.0, f64::max);
        let step = round_step(highest / STEPS);
        let max = (highest / step).ceil() * step;
        Axis {
            max,
            step,
            first,
            last,
        }
    }

    pub fn place(&self, value: f64) -> f64 {
        self.first + (self.last - self.first) * value / self.max
    }

    /// The values that have a line.
    pub fn steps(&self) -> impl Iterator<Item = f64> + '_ {
        let count = (self.max / self.step).round() as u32;
        (0..=count).map(|number| f64::from(number) * self.step)
    }
}

/// The lowest of 1, 2, 5, 10, 20, 50 and so on that is not below `least`.
fn round_step(least: f64) -> f64 {
    let mut power = 1.0;
    loop {
        for factor in [1.0, 2.0, 5.0] {
            if factor * power >= least {
                return factor * power;
            }
        }
        power *= 10.0;
    }
}
