//! The numbers that a ticket of either form holds.

use apart::make;

use crate::setting::{Form, Setting, Taken};

/// The numbers of each part, row by row. A plain ticket has no bias.
#[derive(Clone, Debug, PartialEq, Eq)]
pub struct Parts {
    pub a: Vec<i64>,
    pub b: Vec<i64>,
    pub bias: Vec<i64>,
    pub quotients: Vec<i64>,
    pub remainders: Vec<i64>,
}

impl Parts {
    /// Those of the ticket for these operands whose claims are true: each sum with o
    /// is divided here, so that an error of both sides in it is noticed. A plain
    /// ticket is made without the bias, and a scale of 0 counts as 1.
    pub fn true_ones(setting: &Setting, a: &[i64], b: &[i64], bias: &[i64]) -> Parts {
        let mut parts = Parts {
            a: a.to_vec(),
            b: b.to_vec(),
            bias: match setting.form() {
                Form::Plain => Vec::new(),
                Form::Bias => bias.to_vec(),
            },
            quotients: Vec::new(),
            remainders: Vec::new(),
        };
        let [alpha, o] = [setting.scale.max(1), setting.rounding].map(i128::from);
        for sum in parts.sums(setting) {
            let quotient = (sum + o).div_euclid(alpha);
            parts.quotients.push(quotient as i64);
            parts.remainders.push((sum + o - alpha * quotient) as i64);
        }
        parts
    }

    /// The ticket that holds these numbers.
    pub fn ticket(&self, setting: &Setting) -> Vec<u8> {
        let parts = make::Parts {
            a: self.a.clone(),
            b: self.b.clone(),
            quotients: self.quotients.clone(),
            remainders: self.remainders.clone(),
        };
        match setting.of_apart() {
            Taken::Plain(setting) => parts.ticket(&setting),
            Taken::Bias(setting) => {
                let bias = self.bias.clone();
                make::BiasParts { parts, bias }.ticket(&setting)
            }
        }
    }

    /// What each claim is compared with, row by row: S, or S + c.
    pub fn sums(&self, setting: &Setting) -> Vec<i128> {
        match setting.of_apart() {
            Taken::Plain(setting) => make::sums(&setting, &self.a, &self.b),
            Taken::Bias(setting) => make::bias_sums(&setting, &self.a, &self.b, &self.bias),
        }
    }
}

/// The length of a ticket in bytes, exact for any setting.
pub fn ticket_length(setting: &Setting) -> u128 {
    match setting.of_apart() {
        Taken::Plain(setting) => make::ticket_length(&setting),
        Taken::Bias(setting) => make::bias_ticket_length(&setting),
    }
}
