//! "The setting: public numbers, handed in by the buyer and not by the ticket",
//! and, for bias tickets, the one with "a bias bound W".

use std::ops::RangeInclusive;

use crate::answer::Refusal;
use crate::P;

/// The eight numbers of a setting. Any value may stand in any of them; whether
/// they are within limits and fit is for the check to say.
#[derive(Clone, Copy, Debug, PartialEq, Eq)]
pub struct Setting {
    /// Rows of A, ℓ.
    pub rows: u32,
    /// Columns of A and rows of B, m.
    pub inner: u32,
    /// Columns of B, n.
    pub columns: u32,
    /// Challenge vectors, s.
    pub vectors: u32,
    /// Scale, α.
    pub scale: u32,
    /// Entry bound, T.
    pub bound: u32,
    /// Quotient width, v.
    pub width: u32,
    /// Rounding number, o: "The setting gets a rounding number o".
    pub rounding: u32,
}

impl From<[u32; 8]> for Setting {
    /// The setting of these numbers, in the order of the fields: ℓ, m, n, s, α,
    /// T, v, o.
    fn from([rows, inner, columns, vectors, scale, bound, width, rounding]: [u32; 8]) -> Setting {
        Setting {
            rows,
            inner,
            columns,
            vectors,
            scale,
            bound,
            width,
            rounding,
        }
    }
}

impl From<[u32; 7]> for Setting {
    /// The setting of these numbers, ℓ, m, n, s, α, T, v, and o = 0: "with o = 0
    /// the calls' former answers return".
    fn from([l, m, n, s, alpha, t, v]: [u32; 7]) -> Setting {
        Setting::from([l, m, n, s, alpha, t, v, 0])
    }
}

impl Setting {
    /// The eight numbers, in the order of the fields.
    pub fn numbers(&self) -> [u32; 8] {
        [
            self.rows,
            self.inner,
            self.columns,
            self.vectors,
            self.scale,
            self.bound,
            self.width,
            self.rounding,
        ]
    }

    /// "rows of A: ℓ, 1 to 32; columns of A: m, 1 to 64; columns of B: n, 1 to
    /// 32; challenge vectors: s, 1 to 8"
    fn sizes(&self) -> [(u32, RangeInclusive<u32>); 4] {
        [
            (self.rows, 1..=32),
            (self.inner, 1..=64),
            (self.columns, 1..=32),
            (self.vectors, 1..=8),
        ]
    }

    /// "scale α, 2 to 65,536; entry bound T, 1 to 32,767"
    fn scale_and_bound(&self) -> [(u32, RangeInclusive<u32>); 2] {
        [(self.scale, 2..=65_536), (self.bound, 1..=32_767)]
    }
}

/// "quotient width v, 1 to 30"
pub(crate) fn widths() -> RangeInclusive<u32> {
    1..=30
}

/// 2^(v-1), by which quotients are shifted; v is from 1 to 30 here.
pub(crate) fn half_of_quotients(width: u32) -> i128 {
    1 << (width - 1)
}

/// The setting of a call for bias tickets: "The setting for this call has a bias
/// bound W, 0 to 2^30". Any value may stand here too.
#[derive(Clone, Copy, Debug, PartialEq, Eq)]
pub struct BiasSetting {
    pub setting: Setting,
    /// Bias bound, W.
    pub bias_bound: u32,
}

impl From<[u32; 9]> for BiasSetting {
    /// The setting of these numbers: ℓ, m, n, s, α, T, v, o, W.
    fn from([setting @ .., bias_bound]: [u32; 9]) -> BiasSetting {
        BiasSetting {
            setting: Setting::from(setting),
            bias_bound,
        }
    }
}

impl BiasSetting {
    /// The nine numbers, W last.
    pub fn numbers(&self) -> [u32; 9] {
        let [l, m, n, s, alpha, t, v, o] = self.setting.numbers();
        [l, m, n, s, alpha, t, v, o, self.bias_bound]
    }
}

/// What a call goes by: the eight numbers, and W if the call is one for bias
/// tickets: "both checks and the writer get a call of its own for it". A plain
/// call has no W.
#[derive(Clone, Copy, Debug, PartialEq, Eq)]
pub(crate) struct Terms {
    pub(crate) setting: Setting,
    pub(crate) bias_bound: Option<u32>,
}

impl From<&Setting> for Terms {
    fn from(&setting: &Setting) -> Terms {
        Terms {
            setting,
            bias_bound: None,
        }
    }
}

impl From<&BiasSetting> for Terms {
    fn from(&BiasSetting { setting, bias_bound }: &BiasSetting) -> Terms {
        Terms {
            setting,
            bias_bound: Some(bias_bound),
        }
    }
}

impl Terms {
    /// The tests 1, 2 and 3, in this order, each with place 0; "W beyond 2^30 as
    /// 17, after 2", and "o not below α as 19, after 2 and 17".
    pub(crate) fn test(&self) -> Result<(), Refusal> {
        let width = self.setting.width;
        self.test_limits(Some(width))?;
        if !self.fits(width) {
            return Err(Refusal { number: 3, place: 0 });
        }
        Ok(())
    }

    /// The tests of the limits, 1, 2, 17 and 19, in this order. A width is held to
    /// its limits in 2; where there is none, v is "left unread".
    pub(crate) fn test_limits(&self, width: Option<u32>) -> Result<(), Refusal> {
        let is_outside = |width: u32| !widths().contains(&width);
        let number = if any_outside(&self.setting.sizes()) {
            1
        } else if any_outside(&self.setting.scale_and_bound()) || width.is_some_and(is_outside) {
            2
        } else if self.greatest_bias() > GREATEST_BOUND {
            17
        } else if self.setting.rounding >= self.setting.scale {
            19
        } else {
            return Ok(());
        };
        // "a refusal's place that isn't stated is 0"
        Err(Refusal { number, place: 0 })
    }

    /// "It fits when m·T² + α - 1 ≤ 2^(v-1)·α and 2^v·α < p." With a bias bound
    /// W it "fits when m·T² + W + α - 1 ≤ 2^(v-1)·α and 2^v·α < p." Either way it
    /// "fits when the left side with o added still fits." Asked only within the
    /// limits, and v is the width that is asked for.
    pub(crate) fn fits(&self, width: u32) -> bool {
        let m = i128::from(self.setting.inner);
        let alpha = i128::from(self.setting.scale);
        let t = i128::from(self.setting.bound);
        let w = self.greatest_bias();
        let o = i128::from(self.setting.rounding);
        let half = half_of_quotients(width);
        m * t * t + w + o + alpha - 1 <= half * alpha && 2 * half * alpha < P
    }

    /// W, or 0 in a plain call, which adds nothing.
    pub(crate) fn greatest_bias(&self) -> i128 {
        i128::from(self.bias_bound.unwrap_or(0))
    }

    /// Rows and columns of the bias: "A bias ticket has ℓ by n records of kind
    /// 5", a plain one none.
    pub(crate) fn shape_of_bias(&self) -> (u32, u32) {
        let Setting { rows, columns, .. } = self.setting;
        match self.bias_bound {
            Some(_) => (rows, columns),
            None => (0, columns),
        }
    }
}

/// "W, 0 to 2^30".
const GREATEST_BOUND: i128 = 1 << 30;

fn any_outside(limits: &[(u32, RangeInclusive<u32>)]) -> bool {
    limits.iter().any(|(number, limit)| !limit.contains(number))
}
