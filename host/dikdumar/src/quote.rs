//! What a layer will need, before it is built.

use crate::{library, BiasSetting, Setting};

/// What tickets of a setting need, whatever the operands.
///
/// | number | meaning | given by |
/// |---|---|---|
/// | 0 | quoted | quote, bias quote |
/// | 1 | ℓ, m, n or s outside its limits | quote, bias quote |
/// | 2 | α or T outside its limits | quote, bias quote |
/// | 17 | W above 2^30 | bias quote |
/// | 19 | o not below α | quote, bias quote |
/// | 20 | no v from 1 to 30 fits | quote |
/// | 20 | no v from 1 to 30 fits | bias quote |
///
/// The first of 1, 2, 17, 19 and 20 whose condition holds is given, and then the
/// four figures are 0.
#[repr(C)]
#[derive(Clone, Copy, Debug, PartialEq, Eq)]
pub struct Quote {
    /// 0 where the figures are given, else why there are none.
    pub number: u32,
    /// The smallest width v with which the setting fits.
    pub width: u32,
    /// The bytes of a ticket: the place of the writer's answer.
    pub length: u32,
    /// The products of a full check that accepts.
    pub full_products: u32,
    /// The products of a challenge check that accepts.
    pub challenge_products: u32,
}

impl Quote {
    /// The five numbers, in the order of the fields.
    pub fn numbers(&self) -> [u32; 5] {
        [
            self.number,
            self.width,
            self.length,
            self.full_products,
            self.challenge_products,
        ]
    }
}

/// The quote for plain tickets of a setting. Its width is not read. The length
/// and the products are the same with every width with which the setting passes.
///
/// ```
/// use dikdumar::{quote_ticket, write_ticket, Setting};
///
/// // ℓ = m = n = 2, s = 1, α = 10, T = 8, o = 0; v is not read.
/// let setting = Setting::from([2, 2, 2, 1, 10, 8, 0, 0]);
/// let quote = quote_ticket(setting);
/// assert_eq!(quote.numbers(), [0, 5, 128, 8, 12]);
///
/// // With the width quoted the setting passes, and the ticket is that long.
/// let setting = Setting { width: quote.width, ..setting };
/// let mut ticket = vec![0; quote.length as usize];
/// let answer = write_ticket(setting, &[3, -2, 5, 4], &[-1, 6, 7, -8], &mut ticket);
/// assert_eq!((answer.number, answer.place), (0, quote.length));
///
/// // Over 2, sums of up to 64 · 32767² need more than 30 bits.
/// let setting = Setting { inner: 64, scale: 2, bound: 32_767, ..setting };
/// assert_eq!(quote_ticket(setting).numbers(), [20, 0, 0, 0, 0]);
/// ```
pub fn quote_ticket(setting: Setting) -> Quote {
    library::dikdumar_quote_ticket(setting)
}

/// The quote for bias tickets of a setting. Its width is not read here either.
///
/// ```
/// use dikdumar::{quote_bias_ticket, BiasSetting};
///
/// // The same, with W = 23 and with W = 24, which takes a bit more.
/// let quote = |bias_bound| quote_bias_ticket(BiasSetting::from([2, 2, 2, 1, 10, 8, 0, 0, bias_bound]));
/// assert_eq!(quote(23).numbers(), [0, 5, 160, 8, 16]);
/// assert_eq!(quote(24).numbers(), [0, 6, 160, 8, 16]);
/// ```
pub fn quote_bias_ticket(setting: BiasSetting) -> Quote {
    library::dikdumar_quote_bias_ticket(setting)
}
