//! The forms of a ticket, and the setting of a call of either form.

use std::fmt::{self, Display, Formatter};

/// The forms of a ticket. The checks, the writer and the quote have a call for each.
#[derive(Clone, Copy, Debug, PartialEq, Eq)]
pub enum Form {
    Plain,
    Bias,
}

/// The numbers of a setting. It has a bound of the bias where the call is one for
/// bias tickets, and only there.
#[derive(Clone, Copy, Debug, PartialEq, Eq)]
pub struct Setting {
    pub rows: u32,
    pub inner: u32,
    pub columns: u32,
    pub vectors: u32,
    pub scale: u32,
    pub bound: u32,
    pub width: u32,
    pub rounding: u32,
    pub bias_bound: Option<u32>,
}

impl From<[u32; 7]> for Setting {
    /// The setting of these numbers for a plain ticket: ℓ, m, n, s, α, T, v. Its o
    /// is 0.
    fn from([rows, inner, columns, vectors, scale, bound, width]: [u32; 7]) -> Setting {
        Setting {
            rows,
            inner,
            columns,
            vectors,
            scale,
            bound,
            width,
            rounding: 0,
            bias_bound: None,
        }
    }
}

impl Setting {
    pub const fn plain(setting: apart::Setting) -> Setting {
        Setting {
            rows: setting.rows,
            inner: setting.inner,
            columns: setting.columns,
            vectors: setting.vectors,
            scale: setting.scale,
            bound: setting.bound,
            width: setting.width,
            rounding: setting.rounding,
            bias_bound: None,
        }
    }

    pub const fn with_bias(setting: apart::BiasSetting) -> Setting {
        Setting {
            bias_bound: Some(setting.bias_bound),
            ..Setting::plain(setting.setting)
        }
    }

    pub fn form(&self) -> Form {
        match self.bias_bound {
            None => Form::Plain,
            Some(_) => Form::Bias,
        }
    }

    /// The eight numbers of every setting: ℓ, m, n, s, α, T, v, o.
    pub fn numbers(&self) -> [u32; 8] {
        [
            self.rows,
            self.inner,
            self.columns,
            self.vectors,
            self.scale,
            self.bound,
            self.width,
            self.rounding,
        ]
    }

    /// W, and 0 for a plain ticket, to whose sums nothing is added.
    pub fn greatest_bias(&self) -> u32 {
        self.bias_bound.unwrap_or(0)
    }
}

impl Display for Setting {
    fn fmt(&self, f: &mut Formatter) -> fmt::Result {
        write!(
            f,
            "rows {}, inner {}, columns {}, vectors {}, scale {}, bound {}, width {}, rounding {}",
            self.rows, self.inner, self.columns, self.vectors, self.scale, self.bound, self.width, self.rounding
        )?;
        match self.bias_bound {
            None => Ok(()),
            Some(bias_bound) => write!(f, ", bias bound {bias_bound}"),
        }
    }
}

/// A setting as the calls of one side take it.
pub enum Taken<P, B> {
    Plain(P),
    Bias(B),
}

impl Setting {
    pub fn of_apart(&self) -> Taken<apart::Setting, apart::BiasSetting> {
        let setting = apart::Setting::from(self.numbers());
        match self.bias_bound {
            None => Taken::Plain(setting),
            Some(bias_bound) => Taken::Bias(apart::BiasSetting { setting, bias_bound }),
        }
    }

    pub fn of_library(&self) -> Taken<dikdumar::Setting, dikdumar::BiasSetting> {
        let setting = dikdumar::Setting::from(self.numbers());
        match self.bias_bound {
            None => Taken::Plain(setting),
            Some(bias_bound) => Taken::Bias(dikdumar::BiasSetting { setting, bias_bound }),
        }
    }
}
