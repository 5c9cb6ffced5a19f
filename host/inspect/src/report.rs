//! The whole text: the setting, the ticket, the list, then the answers.

use dikdumar::{Answer, Setting};

use crate::files::{Contents, Files, READ_AT_MOST};
use crate::layout::{self, Layout, RECORD};
use crate::table::Table;
use crate::terms::Terms;
use crate::ticket::{self, Ticket};
use crate::words::{count, hex};
use crate::{answers, inputs, list};

pub const WHOSE_ANSWERS: &str = "The answers are the library's. All else shows what the files hold and decides \
                                 nothing: \"differs\" is a plain comparison.\n";

/// What stands in place of the answers, where there is no setting.
pub fn no_answers(bias_bound: Option<u32>) -> &'static str {
    match bias_bound {
        None => "No check is made without a setting. The program's answer is 1 0 0 0.\n",
        Some(_) => "No check is made without a setting.\n",
    }
}

/// Shows the files of a folder, as those of a bias ticket where there is a W.
pub fn report(files: &Files, bias_bound: Option<u32>) -> String {
    let ticket = bytes(&files.ticket);
    let Some(setting) = inputs::setting(bytes(&files.setting)) else {
        let sections = [
            no_setting_text(&files.setting),
            ticket_heading(&files.ticket) + &ticket::bare(ticket),
            list_text(&files.challenge, None, None),
            no_answers(bias_bound).to_string(),
        ];
        return sections.join("\n");
    };
    let terms = Terms { setting, bias_bound };
    let layout = Layout::new(terms);
    let full = terms.full_check(ticket);
    // A file that is no whole count of numbers is handed over as an empty list: its length is wrong in every setting.
    let challenge = files.challenge.as_ref().map(|file| {
        let list = inputs::list(&file.bytes).unwrap_or_default();
        terms.challenge_check(ticket, &list)
    });
    let sections = [
        setting_text(&files.setting, terms),
        ticket_text(&files.ticket, setting, &layout, full),
        list_text(&files.challenge, Some(setting), challenge),
        answers::text(terms, &layout, ticket, full, challenge),
        WHOSE_ANSWERS.to_string(),
    ];
    sections.join("\n")
}

/// What was read of a file; a missing one counts as empty.
fn bytes(file: &Option<Contents>) -> &[u8] {
    file.as_ref().map_or(&[], |file| &file.bytes)
}

fn heading(name: &str, file: &Option<Contents>) -> String {
    match file {
        None => format!("{name}: missing\n"),
        Some(file) if file.is_longer => {
            format!("{name}: longer than {READ_AT_MOST} bytes; the rest is neither read nor shown\n")
        }
        Some(file) => format!("{name}: {}\n", count(file.bytes.len(), "byte")),
    }
}

fn no_setting_text(file: &Option<Contents>) -> String {
    let bytes = bytes(file);
    let shown = &bytes[..bytes.len().min(inputs::SETTING)];
    let mut text = heading("setting.rec", file);
    if !shown.is_empty() {
        text += &format!("  it begins {}\n", hex(shown));
    }
    text += &format!("  a setting has {} bytes\n", inputs::SETTING);
    if bytes.len() == inputs::FORMER_SETTING {
        text += "  this is one of the former form, without a rounding number: append four zero bytes for o = 0\n";
    }
    text
}

fn setting_text(file: &Option<Contents>, Terms { setting, bias_bound }: Terms) -> String {
    let mut table = Table::default();
    let rounding = match setting.rounding {
        0 => "0 to α - 1; it adds nothing",
        _ => "0 to α - 1; it is added to each sum before that is divided",
    };
    let bias = bias_bound.map(|bound| ("bias", "W", bound, "0 to 1073741824, by --bias"));
    let numbers = [
        ("rows", "ℓ", setting.rows, "1 to 32"),
        ("inner", "m", setting.inner, "1 to 64"),
        ("columns", "n", setting.columns, "1 to 32"),
        ("vectors", "s", setting.vectors, "1 to 8"),
        ("scale", "α", setting.scale, "2 to 65536"),
        ("bound", "T", setting.bound, "1 to 32767"),
        ("width", "v", setting.width, "1 to 30"),
        ("rounding", "o", setting.rounding, rounding),
    ];
    for (name, letter, number, limits) in numbers.into_iter().chain(bias) {
        // Words are padded here, so that they stand to the left.
        let (name, limits) = (format!("{name:<8}"), format!("of {limits:<60}"));
        table.line([name, letter.to_string(), number.to_string(), limits]);
    }
    heading("setting.rec", file) + &table.text()
}

fn ticket_text(file: &Option<Contents>, setting: Setting, layout: &Layout, full: Answer) -> String {
    let (bytes, length) = (bytes(file), layout.records() * RECORD);
    let mut text = ticket_heading(file);
    if bytes.len() == length {
        let ticket = Ticket {
            setting,
            layout,
            records: layout::records(bytes).0,
            marked: &answers::named_records(full, layout),
        };
        return text + &ticket.text();
    }
    let [length, records] = [count(length, "byte"), count(layout.records(), "record")];
    text += &format!("  under this setting a ticket has {length}, {records}\n");
    text + &ticket::kinds(bytes, layout) + &ticket::bare(bytes)
}

fn ticket_heading(file: &Option<Contents>) -> String {
    let (records, _) = layout::records(bytes(file));
    heading("ticket.rec", file) + &format!("  {}\n", count(records.len(), "whole record"))
}

/// The list, with a star at each number that the answer names: one, or those of a
/// vector.
fn list_text(file: &Option<Contents>, setting: Option<Setting>, answer: Option<Answer>) -> String {
    let heading = heading("challenge.rec", file);
    let columns = setting.map_or(0, |setting| setting.columns as usize);
    let named = match answer.map(|answer| (answer.number, answer.place as usize)) {
        Some((11, index)) => index..index + 1,
        Some((21, vector)) => vector * columns..(vector + 1) * columns,
        _ => 0..0,
    };
    match inputs::list(bytes(file)) {
        Some(list) => heading + &list::text(&list, setting, named),
        None => heading + "  no whole count of numbers, which have 4 bytes each\n",
    }
}
