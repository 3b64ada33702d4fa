//! Works a curve: ((a3·x+a2)·x+a1)·x+a0 step by step, then its limits.

use crate::code::Code;
use crate::seen::Seen;
use crate::slip::Slip;
use crate::tree::Curve;
use crate::value::{ranged, Arithmetic, Cut, Value, UNIT};

const STEPS: [&str; 6] =
    ["SYNFCT step 1", "SYNFCT step 2", "SYNFCT step 3", "SYNFCT step 4", "SYNFCT step 5", "SYNFCT step 6"];

impl Curve {
    /// The limited result at x; an alarm of any of the six steps ends it.
    pub fn work(&self, x: Value, slip: Slip, seen: &mut Seen) -> Result<Value, Code> {
        if slip == Slip::CurveWorkedWhole {
            return ranged(self.exact(x).clamp(self.lower, self.upper));
        }
        let result = self.steps(x, slip.cut(), seen)?;
        seen.note(match result {
            _ if result < self.lower => "SYNFCT at the lower limit",
            _ if result > self.upper => "SYNFCT at the upper limit",
            _ => "SYNFCT within",
        });
        Ok(if slip == Slip::CurveUnlimited { result } else { result.max(self.lower).min(self.upper) })
    }

    /// Three products and three sums, each cut and ranged as document 01 says.
    fn steps(&self, x: Value, cut: Cut, seen: &mut Seen) -> Result<Value, Code> {
        let [a0, a1, a2, a3] = self.factors;
        let mut value = a3;
        let works = [a2, a1, a0].into_iter().flat_map(|a| [(Arithmetic::Times, x), (Arithmetic::Plus, a)]);
        for (step, (arithmetic, right)) in STEPS.into_iter().zip(works) {
            value = arithmetic.work(value, right, cut).inspect_err(|_| seen.note(step))?;
        }
        Ok(value)
    }

    /// The polynomial without a cut in between, for a slip.
    fn exact(&self, x: Value) -> Value {
        let unit = i128::from(UNIT);
        let factors = self.factors.iter().rev();
        let (sum, scale) = factors.fold((0, 1), |(sum, scale), factor| {
            (sum * i128::from(x) + i128::from(*factor) * scale, scale * unit)
        });
        let result = sum / (scale / unit);
        result.clamp(Value::MIN.into(), Value::MAX.into()) as Value
    }
}
