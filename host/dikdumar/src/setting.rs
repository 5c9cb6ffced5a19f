//! The settings.

/// The public numbers of a check, and of the writer. They come from the caller,
/// never from the ticket.
///
/// A sum has o added to it and is then divided by α, rounded down. So a rounding
/// of 0 rounds down, and one of α/2 to the nearest, halves up.
///
/// A setting fits when m·T² + o + α - 1 ≤ 2^(v-1)·α and 2^v·α < p. One that is
/// beyond its limits or does not fit is refused, as number 1, 2, 19 or 3.
///
/// ```
/// use dikdumar::Setting;
///
/// let setting = Setting::from([2, 2, 2, 1, 10, 8, 5, 0]);
/// assert_eq!((setting.scale, setting.bound, setting.width), (10, 8, 5));
///
/// // With a width of 4 bits it does not fit.
/// let number = |setting| dikdumar::full_check(setting, &[]).number;
/// assert_eq!(number(Setting { width: 4, ..setting }), 3);
///
/// // To the nearest over 10. A rounding of 10 is outside its limits.
/// let nearest = Setting { rounding: 5, ..setting };
/// assert_eq!((number(nearest), number(Setting { rounding: 10, ..setting })), (4, 19));
/// ```
#[repr(C)]
#[derive(Clone, Copy, Debug, PartialEq, Eq)]
pub struct Setting {
    /// Rows of A, ℓ: 1 to 32.
    pub rows: u32,
    /// Columns of A and rows of B, m: 1 to 64.
    pub inner: u32,
    /// Columns of B, n: 1 to 32.
    pub columns: u32,
    /// Challenge vectors, s: 1 to 8.
    pub vectors: u32,
    /// Scale, α: 2 to 65,536.
    pub scale: u32,
    /// Bound of the entries of A and B, T: 1 to 32,767.
    pub bound: u32,
    /// Width of the quotients in bits, v: 1 to 30.
    pub width: u32,
    /// Rounding number, added to a sum before it is divided, o: 0 to α - 1.
    pub rounding: u32,
}

impl From<[u32; 8]> for Setting {
    /// The setting of these numbers, in the order of the fields: ℓ, m, n, s, α,
    /// T, v, o.
    fn from([rows, inner, columns, vectors, scale, bound, width, rounding]: [u32; 8]) -> Setting {
        Setting {
            rows,
            inner,
            columns,
            vectors,
            scale,
            bound,
            width,
            rounding,
        }
    }
}

/// The public numbers of a check of bias tickets, and of their writer: a setting,
/// and the bound of the bias.
///
/// It fits when m·T² + W + o + α - 1 ≤ 2^(v-1)·α and 2^v·α < p. One that is beyond
/// its limits or does not fit is refused, as number 1, 2, 17, 19 or 3.
///
/// ```
/// use dikdumar::{BiasSetting, Setting};
///
/// let setting = BiasSetting::from([2, 2, 2, 1, 10, 8, 5, 0, 23]);
/// assert_eq!(setting.setting, Setting::from([2, 2, 2, 1, 10, 8, 5, 0]));
/// assert_eq!(setting.bias_bound, 23);
///
/// // 2 · 8² + 23 + 0 + 9 is 16 · 10. A larger bound of the bias does not fit, and
/// // one above 2^30 is outside its limits.
/// let number = |bias_bound| {
///     let setting = BiasSetting { bias_bound, ..setting };
///     dikdumar::bias_full_check(setting, &[]).number
/// };
/// assert_eq!((number(24), number(1 << 30), number((1 << 30) + 1)), (3, 3, 17));
/// ```
#[repr(C)]
#[derive(Clone, Copy, Debug, PartialEq, Eq)]
pub struct BiasSetting {
    /// The setting, ℓ, m, n, s, α, T, v and o, with the limits that it has there.
    pub setting: Setting,
    /// Bound of the entries of the bias, W: 0 to 2^30.
    pub bias_bound: u32,
}

impl From<[u32; 9]> for BiasSetting {
    /// The setting of these numbers, in the order of the fields: ℓ, m, n, s, α,
    /// T, v, o, W.
    fn from([rows, inner, columns, vectors, scale, bound, width, rounding, bias_bound]: [u32; 9]) -> BiasSetting {
        BiasSetting {
            setting: Setting::from([rows, inner, columns, vectors, scale, bound, width, rounding]),
            bias_bound,
        }
    }
}
