//! What the numbers of answers and quotes mean: docs/answers.txt, the one table,
//! which `./dikdumar` reads too.

#![forbid(unsafe_code)]
#![warn(missing_docs)]

/// Comments, the calls and the marks, the names of the columns, then the rows; its
/// comments say what they hold.
const TABLE: &str = include_str!("../../../docs/answers.txt");

/// What a number that a call gives means, in the table's words. The fields are
/// those of the answer behind its number, in their order, and are put in; a quote
/// has none. None where the call, by its name in the table, does not give the
/// number, or gives it with 0 in a field that is not 0 here.
///
/// Number 0 of a run step has two rows, and the later one, complete, is meant where
/// place and row are 0: under way after a step, one of the two is not.
///
/// ```
/// let caught = answers::meaning("challenge check", 12, &[0, 1, 12]).unwrap();
/// assert!(caught.starts_with("caught in vector 0, row 1, after 12 products: "));
/// assert_eq!(answers::meaning("full check", 12, &[0, 1, 12]), None);
///
/// let under_way = answers::meaning("run step", 0, &[0, 1, 8]).unwrap();
/// assert!(under_way.starts_with("under way after 8 products: "));
/// let complete = answers::meaning("run step", 0, &[0, 0, 12]).unwrap();
/// assert!(complete.starts_with("complete after 12 products: "));
///
/// let refused = answers::meaning("bias quote", 17, &[]);
/// assert_eq!(refused.as_deref(), Some("refused: W is above 2^30"));
/// ```
pub fn meaning(call: &str, number: u32, fields: &[u32]) -> Option<String> {
    let mut lines = lines();
    let names = lines.next()?;
    let column = |name| names.iter().position(|&column| column == name);
    let (calls, meaning) = (column("calls")?, column("meaning")?);
    let number = number.to_string();
    let own = |row: &Vec<&str>| row[0] == number && gives(row[calls], call) && fits(&row[calls + 1..], fields);
    let row = lines.filter(own).last()?;
    let mut words = row[meaning].to_string();
    for (name, field) in names[calls + 1..].iter().zip(fields) {
        words = words.replace(&name.to_uppercase(), &field.to_string());
    }
    Some(words)
}

/// The cells of the names of the columns, then of the rows.
fn lines() -> impl Iterator<Item = Vec<&'static str>> {
    let lines = TABLE.lines().filter(|line| !line.starts_with('#'));
    let lines = lines.skip_while(|line| !line.starts_with("number|"));
    lines.map(|line| line.split('|').collect())
}

fn gives(calls: &str, call: &str) -> bool {
    calls.split(", ").any(|name| name == call)
}

/// Whether the fields are 0 where the cells say that they always are.
fn fits(cells: &[&str], fields: &[u32]) -> bool {
    cells
        .iter()
        .zip(fields)
        .all(|(&cell, &field)| cell != "0" || field == 0)
}

#[cfg(test)]
mod tests {
    use super::*;

    #[test]
    fn the_fields_of_an_answer_are_put_in() {
        for (number, fields, expected) in [
            (
                12,
                [7, 31, 40_960],
                "caught in vector 7, row 31, after 40960 products: ",
            ),
            (11, [255, 0, 0], "refused at number 255 of the list: "),
            (1, [0, 0, 0], "refused: ℓ, m, n or s is outside its limits"),
        ] {
            let words = meaning("challenge check", number, &fields).expect("words");
            assert!(words.starts_with(expected), "{words}");
        }
    }

    #[test]
    fn number_0_means_something_else_of_each_call() {
        for (call, fields, expected) in [
            (
                "challenge check",
                &[0, 0, 8][..],
                "accepted after 8 products: both sides of every row are equal, for every vector",
            ),
            (
                "full check",
                &[0, 0, 8],
                "accepted after 8 products: every claim is true",
            ),
            (
                "writer",
                &[128, 0, 8],
                "written after 8 products: the ticket is the first 128 bytes of the output",
            ),
            (
                "quote",
                &[],
                "quoted: the figures are those that the writer and both checks report",
            ),
        ] {
            assert_eq!(meaning(call, 0, fields).as_deref(), Some(expected));
        }
    }

    #[test]
    fn number_0_of_a_run_is_under_way_or_complete() {
        for (call, fields, expected) in [
            (
                "run begin",
                [0, 0, 0],
                "under way: the tests pass, and no row is made yet",
            ),
            (
                "run step",
                [0, 1, 8],
                "under way after 8 products: row 1 of vector 0 is next",
            ),
            (
                "run step",
                [1, 0, 12],
                "under way after 12 products: row 0 of vector 1 is next",
            ),
            (
                "run step",
                [0, 0, 12],
                "complete after 12 products: both sides of every row are equal, for every vector",
            ),
            (
                "run addition",
                [0, 0, 0],
                "under way after 0 products: row 0 of vector 0 is next",
            ),
        ] {
            assert_eq!(meaning(call, 0, &fields).as_deref(), Some(expected));
        }
    }

    #[test]
    fn fields_that_are_always_0_are_no_others() {
        for (call, number, fields) in [
            ("challenge check", 0, [1, 0, 12]),
            ("challenge check", 10, [0, 0, 1]),
            ("full check", 16, [0, 1, 2]),
            ("run begin", 0, [0, 1, 8]),
        ] {
            assert_eq!(meaning(call, number, &fields), None, "{call}, {number}");
        }
    }

    #[test]
    fn numbers_mean_something_else_with_a_bias() {
        for (call, number, with_bias) in [
            ("challenge check", 3, "m·T² + W + o + α - 1 ≤ 2^(v-1)·α"),
            ("full check", 4, "8(ℓm + mn + 3ℓn)"),
            ("writer", 13, "that of the bias is not ℓn"),
            ("full check", 16, "α·q + r - o is not S + c"),
            ("quote", 20, "m·T² + W + o + α - 1 ≤ 2^(v-1)·α"),
        ] {
            let words = |call: &str| meaning(call, number, &[0, 0, 0]).expect("words");
            assert!(!words(call).contains(with_bias));
            assert!(words(&format!("bias {call}")).contains(with_bias));
        }
    }

    #[test]
    fn a_quote_reads_neither_a_file_nor_v() {
        for (number, of_a_check, of_a_quote) in [
            (
                1,
                "or setting.rec does not have 20 bytes",
                "n or s is outside its limits",
            ),
            (2, "α, T or v", "α or T"),
        ] {
            for bias in ["", "bias "] {
                let words = |call| meaning(&format!("{bias}{call}"), number, &[]).expect("words");
                assert!(words("full check").contains(of_a_check));
                assert!(!words("quote").contains(of_a_check));
                assert!(words("quote").contains(of_a_quote));
            }
        }
    }

    #[test]
    fn a_number_that_a_call_does_not_give_has_no_words() {
        for (call, number) in [
            ("full check", 10),
            ("challenge check", 16),
            ("writer", 4),
            ("challenge check", 17),
            ("full check", 18),
            ("bias writer", 4),
            ("full check", 20),
            ("bias writer", 20),
            ("quote", 3),
            ("quote", 17),
            ("bias quote", 18),
            ("run begin", 12),
            ("run addition", 4),
            ("run step", 22),
            ("check", 0),
            ("full check", 1000),
            ("dikdumar_quote_ticket", 0),
        ] {
            assert_eq!(meaning(call, number, &[0, 0, 0]), None, "{call}, {number}");
        }
    }

    /// The names of the calls that give an answer, or of those that give a quote.
    fn names(kind: &str) -> Vec<&'static str> {
        let lines = TABLE.lines().map(|line| line.split('|').collect::<Vec<_>>());
        lines.filter(|line| line[0] == kind).map(|line| line[1]).collect()
    }

    #[test]
    fn every_row_has_words_of_its_calls() {
        let (calls, quotes) = (names("call"), names("quote"));
        assert_eq!((calls.len(), &quotes[..]), (9, &["quote", "bias quote"][..]));
        for row in lines().skip(1) {
            let number = row[0].parse().expect("a number");
            for call in row[1].split(", ") {
                let is_quote = quotes.contains(&call);
                assert!(is_quote || calls.contains(&call), "{call}");
                // What a quote does not have, no row says of it.
                assert_eq!(row[2..5] == ["-", "-", "-"], is_quote, "{row:?}");
                let fields: Vec<u32> = match is_quote {
                    true => Vec::new(),
                    false => (1..)
                        .zip(&row[2..5])
                        .map(|(k, &cell)| if cell == "0" { 0 } else { k })
                        .collect(),
                };
                let words = meaning(call, number, &fields).expect("words");
                assert_eq!(words.split(' ').next(), row[6].split(' ').next());
                assert!(!["PLACE", "ROW", "PRODUCTS", "|"]
                    .iter()
                    .any(|word| words.contains(word)));
            }
        }
    }

    #[test]
    fn every_number_that_a_quote_gives_has_words() {
        let given = |call| (0..100).filter(move |&number| meaning(call, number, &[]).is_some());
        assert_eq!(given("quote").collect::<Vec<_>>(), [0, 1, 2, 19, 20]);
        assert_eq!(given("bias quote").collect::<Vec<_>>(), [0, 1, 2, 17, 19, 20]);
    }

    #[test]
    fn every_number_that_a_run_gives_has_words() {
        let given = |call| (0..100).filter(move |&number| meaning(call, number, &[0, 0, 0]).is_some());
        let [begin, step, addition] =
            ["run begin", "run step", "run addition"].map(|call| given(call).collect::<Vec<_>>());
        assert_eq!(begin, (0..12).chain([19, 21]).collect::<Vec<_>>());
        assert_eq!(step, (0..13).chain([19, 21]).collect::<Vec<_>>());
        assert_eq!(addition, [0, 1, 2, 3, 10, 11, 19, 21, 22]);
    }
}
