//! The layer that a quote is asked for.

use dikdumar::{quote_bias_ticket, quote_ticket, BiasSetting, Quote, Setting};

/// The numbers that a buyer gives.
#[derive(Clone, Copy, Debug, PartialEq, Eq)]
pub struct Layer {
    /// The width is not read.
    pub setting: Setting,
    /// W, where the tickets have a bias.
    pub bias_bound: Option<u32>,
}

impl Layer {
    /// ℓ, m, n, s, α, T, o, W. None where one is missing; W need not be there.
    pub fn new(numbers: [Option<u32>; 8]) -> Option<Layer> {
        let [rows, inner, columns, vectors, scale, bound, rounding, bias_bound] = numbers;
        let setting = Setting {
            rows: rows?,
            inner: inner?,
            columns: columns?,
            vectors: vectors?,
            scale: scale?,
            bound: bound?,
            width: 0,
            rounding: rounding?,
        };
        Some(Layer { setting, bias_bound })
    }

    pub fn quote(self) -> Quote {
        let setting = self.setting;
        match self.bias_bound {
            None => quote_ticket(setting),
            Some(bias_bound) => quote_bias_ticket(BiasSetting { setting, bias_bound }),
        }
    }

    /// The library gives figures.
    pub fn is_quoted(self) -> bool {
        self.quote().number == 0
    }

    /// The name of the call that quotes, in docs/answers.txt.
    pub fn call(self) -> &'static str {
        match self.bias_bound {
            None => "quote",
            Some(_) => "bias quote",
        }
    }
}

#[cfg(test)]
mod tests {
    use super::*;

    #[test]
    fn a_bias_bound_makes_it_a_bias_ticket() {
        let numbers = [2, 2, 2, 1, 10, 8, 0].map(Some);
        let [rows, inner, columns, vectors, scale, bound, rounding] = numbers;
        let layer = |bias_bound| Layer::new([rows, inner, columns, vectors, scale, bound, rounding, bias_bound]);
        for (bias_bound, call, figures) in [
            (None, "quote", [0, 5, 128, 8, 12]),
            (Some(0), "bias quote", [0, 5, 160, 8, 16]),
            (Some(24), "bias quote", [0, 6, 160, 8, 16]),
        ] {
            let layer = layer(bias_bound).expect("a layer");
            assert_eq!((layer.call(), layer.quote().numbers()), (call, figures));
            assert!(layer.is_quoted());
        }
        let beyond = layer(Some((1 << 30) + 1)).expect("a layer");
        assert_eq!((beyond.quote().number, beyond.is_quoted()), (17, false));
    }

    #[test]
    fn every_number_but_the_bias_bound_is_needed() {
        let all = [2, 2, 2, 1, 10, 8, 0, 23].map(Some);
        for missing in 0..8 {
            let mut numbers = all;
            numbers[missing] = None;
            assert_eq!(Layer::new(numbers).is_some(), missing == 7);
        }
    }
}
