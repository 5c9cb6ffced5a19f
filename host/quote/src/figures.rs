//! The text of a quote.

use dikdumar::Quote;

use crate::draw::Draw;
use crate::layer::Layer;
use crate::words::{count, percent, thousands};

/// What is quoted, the figures, and what they rest on.
pub fn text(layer: Layer, draw: Draw, quote: Quote) -> String {
    let bounds = if layer.bias_bound.is_some() { "bounds" } else { "bound" };
    heading(layer)
        + "\n"
        + &table(layer, draw, quote)
        + &format!(
            "\nWith any operands within the {bounds}, the writer and the accepting checks report exactly these.\n"
        )
}

fn heading(Layer { setting, bias_bound }: Layer) -> String {
    let kind = if bias_bound.is_some() { "bias" } else { "plain" };
    let [rows, inner, columns] = [setting.rows, setting.inner, setting.columns];
    let vectors = count(setting.vectors, "challenge vector");
    let [scale, bound, rounding] = [setting.scale, setting.bound, setting.rounding].map(thousands);
    let bias = bias_bound.map_or(String::new(), |bound| format!(", bias bound {}", thousands(bound)));
    format!(
        "Quote for a {kind} ticket: A {rows} by {inner}, B {inner} by {columns}, {vectors},\n\
         scale {scale}, bound {bound}, rounding {rounding}{bias}\n"
    )
}

/// A line for each figure: its label to the left, the number to the right, its
/// unit.
fn table(layer: Layer, draw: Draw, quote: Quote) -> String {
    let Quote {
        width,
        length,
        full_products,
        challenge_products,
        ..
    } = quote;
    let cost = percent(challenge_products, full_products);
    let of_a_full_check = if challenge_products < full_products {
        "% of a full check"
    } else {
        "% of a full check, which costs no more and is exact"
    };
    let figures = [
        ("smallest width", thousands(width), "bits"),
        ("ticket", thousands(length), "bytes"),
        ("full check", thousands(full_products), "products"),
        ("challenge check", thousands(challenge_products), "products"),
        ("challenge check costs", cost, of_a_full_check),
    ];
    let mut text = String::new();
    for (label, number, unit) in figures {
        text += &format!("  {label:<21}  {number:>7}  {unit}\n");
    }
    text + &format!(
        "  {:<21}  {}\n",
        "a false ticket passes",
        draw.how_often(layer.setting.columns, layer.setting.vectors)
    )
}

#[cfg(test)]
mod tests {
    use super::*;
    use crate::tests::{layer, with_bias};

    fn shown(layer: Layer) -> String {
        let quote = layer.quote();
        assert_eq!(quote.number, 0);
        text(layer, Draw::All, quote)
    }

    /// The words behind a label.
    fn figure<'a>(text: &'a str, label: &str) -> &'a str {
        let label = format!("  {label}  ");
        text.lines()
            .find_map(|line| line.strip_prefix(&label))
            .expect("a figure")
            .trim_start()
    }

    #[test]
    fn the_figures_are_those_of_the_library() {
        for (layer, figures) in [
            (
                layer([2, 2, 2, 1, 10, 8, 0]),
                ["5  bits", "128  bytes", "8  products", "12  products"],
            ),
            (
                with_bias(24, layer([2, 2, 2, 1, 10, 8, 0])),
                ["6  bits", "160  bytes", "8  products", "16  products"],
            ),
            (
                layer([32, 64, 32, 8, 65_536, 2000, 32_768]),
                ["13  bits", "49,152  bytes", "65,536  products", "40,960  products"],
            ),
        ] {
            let text = shown(layer);
            let labels = ["smallest width", "ticket", "full check", "challenge check"];
            assert_eq!(labels.map(|label| figure(&text, label)), figures, "{text}");
        }
    }

    #[test]
    fn a_challenge_check_that_costs_more_is_named() {
        // With s = 1 these are 7 · 7 · 7 and 3 · 7 · 7 products; with s = 2 and 3 · 3 · 6, 72 and 54.
        for (numbers, expected) in [
            ([7, 7, 7, 1, 10, 8, 0], "42.9  % of a full check"),
            (
                [3, 3, 3, 1, 10, 8, 0],
                "100.0  % of a full check, which costs no more and is exact",
            ),
            (
                [3, 3, 6, 2, 10, 8, 0],
                "166.7  % of a full check, which costs no more and is exact",
            ),
            (
                [1, 1, 1, 8, 10, 8, 0],
                "2,400.0  % of a full check, which costs no more and is exact",
            ),
        ] {
            assert_eq!(figure(&shown(layer(numbers)), "challenge check costs"), expected);
        }
        // 99.95 % is shown as 100.0 %, and the full check costs more.
        let quote = Quote {
            number: 0,
            width: 5,
            length: 128,
            full_products: 2000,
            challenge_products: 1999,
        };
        let text = text(layer([2, 2, 2, 1, 10, 8, 0]), Draw::All, quote);
        assert_eq!(figure(&text, "challenge check costs"), "100.0  % of a full check");
    }

    #[test]
    fn no_line_is_too_long() {
        let largest = layer([32, 64, 32, 8, 65_535, 32_767, 65_534]);
        let most = with_bias(1 << 30, largest);
        let quote = layer([1, 1, 1, 8, 10, 8, 0]).quote();
        for (layer, draw) in [(largest, Draw::All), (most, Draw::From(i32::MAX as u32))] {
            let text = text(layer, draw, quote);
            assert!(text.lines().all(|line| line.chars().count() <= 100), "{text}");
        }
    }
}
