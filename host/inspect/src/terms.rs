//! What a ticket is checked under, and its two checks.

use dikdumar::{bias_challenge_check, bias_full_check, challenge_check, full_check, Answer, BiasSetting, Setting};

/// The setting and, of a bias ticket, W.
#[derive(Clone, Copy, Debug, PartialEq, Eq)]
pub struct Terms {
    pub setting: Setting,
    /// The ticket has a bias, whose entries are from -W to W.
    pub bias_bound: Option<u32>,
}

impl Terms {
    pub fn full_check(self, ticket: &[u8]) -> Answer {
        match self.bias_setting() {
            None => full_check(self.setting, ticket),
            Some(setting) => bias_full_check(setting, ticket),
        }
    }

    pub fn challenge_check(self, ticket: &[u8], list: &[u32]) -> Answer {
        match self.bias_setting() {
            None => challenge_check(self.setting, ticket, list),
            Some(setting) => bias_challenge_check(setting, ticket, list),
        }
    }

    fn bias_setting(self) -> Option<BiasSetting> {
        let setting = self.setting;
        self.bias_bound.map(|bias_bound| BiasSetting { setting, bias_bound })
    }

    /// The name of the call that makes a check, in docs/answers.txt.
    pub fn call(self, check: &str) -> String {
        let bias = if self.bias_bound.is_some() { "bias " } else { "" };
        format!("{bias}{check}")
    }
}
