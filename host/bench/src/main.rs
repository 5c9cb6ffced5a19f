//! Times the library, in one run and on the same true tickets. Run by hand:
//!
//!     cargo run --release -p bench
//!
//! Whole calls are set beside the calls as one writes them first and, where it is
//! installed, FLINT: of the challenge check, Freivalds' check of matrices that are
//! in memory, with nothing read or tested, and of the full check, the product.
//! Parts of calls are set beside kernels, loops that do the same work as fast as
//! every x86-64 processor can. Calls on bias tickets are set beside those on plain
//! tickets of the same operands, and checks by steps beside whole ones.
//!
//! All are timed in turns, so that whatever else the machine does falls on all;
//! as it can only lengthen a time, the least time over the rounds is taken.

#[cfg(flint)]
mod flint;
mod kernels;
mod runs;
mod straightforward;
mod table;
#[cfg(test)]
mod tests;

#[cfg(flint)]
use std::cell::RefCell;
use std::hint::black_box;
use std::time::{Duration, Instant};

use dikdumar::{Answer, BiasSetting, Setting};
use runs::Runs;
use table::{Bias, Call, Part, Table};

/// How long the rounds go on.
const ROUNDS: Duration = Duration::from_secs(30);
/// How long one measurement takes at least: long beside the clock's steps, short
/// beside the time that another process is given.
const MEASUREMENT: Duration = Duration::from_micros(60);

const SIZES: [[u32; 3]; 3] = [[1, 1, 1], [8, 8, 8], [32, 64, 32]];
const VECTORS: [u32; 2] = [1, 8];

/// A program of the same rules.
struct Program {
    challenge_check: fn(Setting, &[u8], &[u32]) -> Answer,
    full_check: fn(Setting, &[u8]) -> Answer,
    write_ticket: fn(Setting, &[i32], &[i32], &mut [u8]) -> Answer,
}

/// The library first.
static PROGRAMS: [Program; 2] = [
    Program {
        challenge_check: dikdumar::challenge_check,
        full_check: dikdumar::full_check,
        write_ticket: dikdumar::write_ticket,
    },
    Program {
        challenge_check: straightforward::challenge_check,
        full_check: straightforward::full_check,
        write_ticket: straightforward::write_ticket,
    },
];

fn main() {
    let start = Instant::now();
    let inputs: Vec<Input> = SIZES.iter().map(|&sizes| Input::new(sizes)).collect();
    let mut clock = Clock::default();
    let plans: Vec<Plan> = inputs.iter().map(|input| Plan::new(input, &mut clock)).collect();
    let rounds = clock.run();

    let mut table = Table::default();
    for (input, plan) in inputs.iter().zip(&plans) {
        plan.lines(input, &clock, &mut table);
    }
    println!("Processor: {}", processor());
    #[cfg(flint)]
    println!("FLINT: {}", flint::version());
    #[cfg(not(flint))]
    println!("FLINT: libflint-dev is not installed, skipped");
    println!(
        "Least times of {rounds} rounds in turns, {} s.",
        start.elapsed().as_secs()
    );
    println!();
    print!("{table}");
}

fn processor() -> String {
    let text = std::fs::read_to_string("/proc/cpuinfo").unwrap_or_default();
    let name = text
        .lines()
        .find_map(|line| line.strip_prefix("model name")?.split_once(": "));
    name.map_or("unknown", |(_, name)| name).to_string()
}

/// Two matrices, their true ticket, one that is false in row 0, and a list for
/// the most vectors.
struct Input {
    setting: Setting,
    a: Vec<i32>,
    b: Vec<i32>,
    /// The exact sums of A·B.
    sums: Vec<i32>,
    ticket: Vec<u8>,
    false_ticket: Vec<u8>,
    list: Vec<u32>,
    /// A bias of every size up to its bound, and the true ticket with it.
    bias_setting: BiasSetting,
    bias: Vec<i32>,
    bias_ticket: Vec<u8>,
    #[cfg(flint)]
    flint: [RefCell<flint::Matrices>; 2],
}

impl Input {
    fn new([rows, inner, columns]: [u32; 3]) -> Input {
        let most = VECTORS[1];
        // These fit at every size.
        let setting = apart::Setting {
            rows,
            inner,
            columns,
            vectors: most,
            scale: 1000,
            bound: 1000,
            width: 18,
            rounding: 0,
        };
        // Weyl's sequence spreads over the range well enough for timing.
        let spread = |index: u32| index.wrapping_add(1).wrapping_mul(0x9e37_79b9);
        let entries = |count: u32, shift: u32| -> Vec<i32> {
            (0..count)
                .map(|index| (spread(index + shift) % 2001) as i32 - 1000)
                .collect()
        };
        let a = entries(rows * inner, 0);
        let b = entries(inner * columns, rows * inner);
        let sum = |i: u32, j: u32| -> i32 {
            let product = |k: u32| a[(i * inner + k) as usize] * b[(k * columns + j) as usize];
            (0..inner).map(product).sum()
        };
        let sums: Vec<i32> = (0..rows * columns)
            .map(|claim| sum(claim / columns, claim % columns))
            .collect();
        let [wide_a, wide_b] = [&a, &b].map(|matrix| matrix.iter().copied().map(i64::from).collect::<Vec<_>>());
        let ticket = apart::true_ticket(&setting, &wide_a, &wide_b);
        let list: Vec<u32> = (0..most * columns).map(|index| spread(index) % 2_147_483_647).collect();
        // The remainder in row 0, column 0.
        let mut false_ticket = ticket.clone();
        let remainder = ticket.len() - 8 * (rows * columns) as usize + 4;
        false_ticket[remainder] ^= 1;
        let bias_setting = BiasSetting {
            setting: Setting::from(setting.numbers()),
            bias_bound: 1000,
        };
        let bias = entries(rows * columns, rows * inner + inner * columns);
        let mut bias_ticket = vec![0; ticket.len() + 8 * (rows * columns) as usize];
        let written = dikdumar::write_bias_ticket(bias_setting, &a, &b, &bias, &mut bias_ticket);
        assert_eq!(written.number, 0);
        Input {
            setting: bias_setting.setting,
            #[cfg(flint)]
            flint: VECTORS.map(|vectors| {
                let [a, b, c] = [&a, &b, &sums].map(|matrix| -> Vec<u32> {
                    let residues = matrix.iter().map(|&entry| dikdumar::residue::from_signed(entry));
                    residues.collect()
                });
                // The vectors as columns.
                let x: Vec<u32> = (0..columns * vectors)
                    .map(|index| list[(index % vectors * columns + index / vectors) as usize])
                    .collect();
                RefCell::new(flint::Matrices::new([rows, inner, columns, vectors], &a, &b, &c, &x))
            }),
            a,
            b,
            sums,
            ticket,
            false_ticket,
            list,
            bias_setting,
            bias,
            bias_ticket,
        }
    }

    /// The setting and the list for so many vectors.
    fn challenge(&self, vectors: u32) -> (Setting, &[u32]) {
        let setting = Setting {
            vectors,
            ..self.setting
        };
        (setting, &self.list[..(vectors * setting.columns) as usize])
    }

    fn size(&self) -> String {
        let Setting {
            rows, inner, columns, ..
        } = self.setting;
        format!("{rows}×{inner}×{columns}")
    }
}

/// The number of a measurement.
type Number = usize;

/// Measurements, in turns.
#[derive(Default)]
struct Clock<'a> {
    measurements: Vec<Measurement<'a>>,
}

struct Measurement<'a> {
    /// Makes a call so many times.
    call: Box<dyn FnMut(u32) + 'a>,
    count: u32,
    /// Nanoseconds of one call.
    least: f64,
}

impl<'a> Clock<'a> {
    fn add<T>(&mut self, mut call: impl FnMut() -> T + 'a) -> Number {
        self.measurements.push(Measurement {
            call: Box::new(move |count| {
                for _ in 0..count {
                    black_box(call());
                }
            }),
            count: 1,
            least: f64::INFINITY,
        });
        self.measurements.len() - 1
    }

    /// The number of rounds.
    fn run(&mut self) -> usize {
        for measurement in &mut self.measurements {
            // As many calls as fill a measurement, found by doubling.
            while measurement.nanoseconds() * f64::from(measurement.count) < MEASUREMENT.as_nanos() as f64 {
                measurement.count *= 2;
            }
        }
        let start = Instant::now();
        let mut rounds = 0;
        while start.elapsed() < ROUNDS {
            for measurement in &mut self.measurements {
                // What was measured before has left other things in the caches.
                (measurement.call)(1);
                measurement.least = measurement.least.min(measurement.nanoseconds());
            }
            rounds += 1;
        }
        rounds
    }

    fn nanoseconds(&self, number: Number) -> f64 {
        self.measurements[number].least
    }
}

impl Measurement<'_> {
    fn nanoseconds(&mut self) -> f64 {
        let start = Instant::now();
        (self.call)(self.count);
        start.elapsed().as_nanos() as f64 / f64::from(self.count)
    }
}

/// What is measured of one size: whole calls by each program, and by FLINT last,
/// and parts, where the kernels take the size.
struct Plan {
    challenge_check: [Vec<Number>; 2],
    full_check: Vec<Number>,
    write_ticket: Vec<Number>,
    parts: Option<Parts>,
    bias: BiasCalls,
    runs: Runs,
}

/// The library's calls on a bias ticket, with the products that each counts.
struct BiasCalls {
    challenge_check: [(Number, u32); 2],
    full_check: (Number, u32),
    write_ticket: (Number, u32),
}

/// What tells the times of the library's parts, and the kernels.
struct Parts {
    /// Ends at a list of the wrong length.
    reading: Number,
    /// Ends at row 0 of the only vector.
    caught: Number,
    kernels: Kernels,
}

struct Kernels {
    reading: Number,
    product: Number,
    rows: Number,
    sums: Number,
    records: Number,
}

impl Plan {
    fn new<'a>(input: &'a Input, clock: &mut Clock<'a>) -> Plan {
        #[cfg_attr(not(flint), allow(unused_mut))]
        let mut challenge_check = VECTORS.map(|vectors| {
            let (setting, list) = input.challenge(vectors);
            let numbers = PROGRAMS
                .iter()
                .map(|program| challenge(program, setting, &input.ticket, list, 0, clock));
            numbers.collect::<Vec<Number>>()
        });
        #[cfg_attr(not(flint), allow(unused_mut))]
        let mut full_check: Vec<Number> = PROGRAMS
            .iter()
            .map(|program| {
                assert_eq!((program.full_check)(input.setting, &input.ticket).number, 0);
                clock.add(move || (program.full_check)(black_box(input.setting), black_box(&input.ticket)))
            })
            .collect();
        let write_ticket = PROGRAMS
            .iter()
            .map(|program| {
                let mut output = vec![0; input.ticket.len()];
                let mut call = move || {
                    let (a, b) = (black_box(&input.a), black_box(&input.b));
                    (program.write_ticket)(black_box(input.setting), a, b, black_box(&mut output))
                };
                assert_eq!(call().number, 0);
                clock.add(call)
            })
            .collect();
        #[cfg(flint)]
        {
            for (numbers, flint) in challenge_check.iter_mut().zip(&input.flint) {
                assert!(flint.borrow_mut().freivalds(), "the claims are true");
                numbers.push(clock.add(|| flint.borrow_mut().freivalds()));
            }
            let flint = &input.flint[0];
            flint.borrow_mut().product();
            assert!(flint.borrow_mut().product_is_c(), "the product is that of the claims");
            full_check.push(clock.add(|| flint.borrow_mut().product()));
        }
        Plan {
            challenge_check,
            full_check,
            write_ticket,
            parts: kernels::fit(input.setting).then(|| Parts::new(input, clock)),
            bias: BiasCalls::new(input, clock),
            runs: Runs::new(input, clock),
        }
    }

    fn lines(&self, input: &Input, clock: &Clock, table: &mut Table) {
        let mut add = |vectors, name, numbers: &[Number]| {
            table.calls.push(Call {
                size: input.size(),
                vectors,
                name,
                times: numbers.iter().map(|&number| clock.nanoseconds(number)).collect(),
            });
        };
        for (vectors, numbers) in VECTORS.iter().zip(&self.challenge_check) {
            add(Some(*vectors), "challenge check", numbers);
        }
        add(None, "full check", &self.full_check);
        add(None, "writer", &self.write_ticket);
        if let Some(parts) = &self.parts {
            parts.lines(self, input, clock, table);
        }
        self.bias.lines(self, input, clock, table);
        self.runs.lines(self, input, clock, table);
    }
}

/// Times a challenge check, whose answer has this number.
fn challenge<'a>(
    program: &'a Program,
    setting: Setting,
    ticket: &'a [u8],
    list: &'a [u32],
    number: u32,
    clock: &mut Clock<'a>,
) -> Number {
    assert_eq!((program.challenge_check)(setting, ticket, list).number, number);
    clock.add(move || (program.challenge_check)(black_box(setting), black_box(ticket), black_box(list)))
}

impl BiasCalls {
    fn new<'a>(input: &'a Input, clock: &mut Clock<'a>) -> BiasCalls {
        let challenge_check = VECTORS.map(|vectors| {
            let (setting, list) = input.challenge(vectors);
            let setting = BiasSetting {
                setting,
                ..input.bias_setting
            };
            let ticket = &input.bias_ticket;
            let call = move || dikdumar::bias_challenge_check(black_box(setting), black_box(ticket), black_box(list));
            (clock.add(call), accepted(call()))
        });
        let setting = input.bias_setting;
        let full_check = move || dikdumar::bias_full_check(black_box(setting), black_box(&input.bias_ticket));
        let mut output = vec![0; input.bias_ticket.len()];
        let mut write_ticket = move || {
            let (a, b, bias) = (black_box(&input.a), black_box(&input.b), black_box(&input.bias));
            dikdumar::write_bias_ticket(black_box(setting), a, b, bias, black_box(&mut output))
        };
        let written = accepted(write_ticket());
        BiasCalls {
            challenge_check,
            full_check: (clock.add(full_check), accepted(full_check())),
            write_ticket: (clock.add(write_ticket), written),
        }
    }

    fn lines(&self, plan: &Plan, input: &Input, clock: &Clock, table: &mut Table) {
        let mut add =
            |vectors: Option<u32>, name, (number, products): (Number, u32), plain: &[Number], counted: u32| {
                table.bias.push(Bias {
                    size: input.size(),
                    vectors,
                    name,
                    time: clock.nanoseconds(number),
                    plain: clock.nanoseconds(plain[0]),
                    products: [products, counted],
                });
            };
        let Setting {
            rows, inner, columns, ..
        } = input.setting;
        let sums = rows * inner * columns;
        for (index, vectors) in VECTORS.into_iter().enumerate() {
            let counted = vectors * (inner * columns + rows * columns + rows * inner);
            let plain = &plan.challenge_check[index];
            add(
                Some(vectors),
                "challenge check",
                self.challenge_check[index],
                plain,
                counted,
            );
        }
        add(None, "full check", self.full_check, &plan.full_check, sums);
        add(None, "writer", self.write_ticket, &plan.write_ticket, sums);
    }
}

/// The products of an answer whose number is 0.
fn accepted(answer: Answer) -> u32 {
    assert_eq!(answer.number, 0);
    answer.products
}

impl Parts {
    fn new<'a>(input: &'a Input, clock: &mut Clock<'a>) -> Parts {
        let (setting, list) = input.challenge(1);
        Parts {
            reading: challenge(&PROGRAMS[0], setting, &input.ticket, &list[1..], 10, clock),
            caught: challenge(&PROGRAMS[0], setting, &input.false_ticket, list, 12, clock),
            kernels: Kernels::new(input, list, clock),
        }
    }

    fn lines(&self, plan: &Plan, input: &Input, clock: &Clock, table: &mut Table) {
        let kernels = &self.kernels;
        let kernel = |number| Some(clock.nanoseconds(number));
        let [one, most] = [0, 1].map(|index| clock.nanoseconds(plan.challenge_check[index][0]));
        let reading = clock.nanoseconds(self.reading);
        // The check that is caught has done all but the rows after the first.
        let count = f64::from(input.setting.rows);
        let rows = (one - clock.nanoseconds(self.caught)) / (count - 1.0) * count;
        let vector = (most - one) / f64::from(VECTORS[1] - VECTORS[0]);
        let full_check = clock.nanoseconds(plan.full_check[0]);
        let writer = clock.nanoseconds(plan.write_ticket[0]);
        let writer_kernels = clock.nanoseconds(kernels.sums) + clock.nanoseconds(kernels.records);

        let mut add = |name, library, kernel| {
            let size = input.size();
            table.parts.push(Part {
                size,
                name,
                library,
                kernel,
            });
        };
        // Those of the challenge check, the last two for one vector; the full check
        // without reading; the writer.
        add("reading", reading, kernel(kernels.reading));
        add("decoding", one - vector - reading, None);
        add("u", vector - rows, kernel(kernels.product));
        add("rows", rows, kernel(kernels.rows));
        add("sums", full_check - reading, kernel(kernels.sums));
        add("sums and records", writer, Some(writer_kernels));
    }
}

impl Kernels {
    /// With the vector x.
    fn new<'a>(input: &'a Input, x: &'a [u32], clock: &mut Clock<'a>) -> Kernels {
        let setting = input.setting;
        let [inner, columns] = [setting.inner, setting.columns].map(|columns| columns as usize);
        let ticket = &input.ticket[..];
        let b_records = kernels::parts(setting, ticket)[1];
        let [a, b] = [&input.a, &input.b].map(|matrix| matrix.iter().map(|&entry| entry as i16).collect::<Vec<_>>());
        let a_by_rows = kernels::by_rows(&a, inner);
        let lift = kernels::lift(setting);
        let claims: Vec<u32> = input.sums.iter().map(|sum| lift.wrapping_add_signed(*sum)).collect();
        let [scale, rounding] = [setting.scale, setting.rounding].map(|number| number as i32);
        let rounded = input.sums.iter().map(|sum| sum + rounding);
        let quotients: Vec<i32> = rounded.clone().map(|sum| sum.div_euclid(scale)).collect();
        let remainders: Vec<i32> = rounded.map(|sum| sum.rem_euclid(scale)).collect();

        let mut u = vec![[kernels::four_of(0); 2]; inner / 2];
        kernels::product(b_records, x, &mut u);
        let known_u = u.clone();
        let reading = move || kernels::reading(black_box(setting), black_box(ticket));
        let product = move || kernels::product(black_box(b_records), black_box(x), black_box(&mut u));
        let rows = move || {
            let (a, claims, u) = (black_box(&a_by_rows), black_box(&claims), black_box(&known_u));
            kernels::rows(a, claims, black_box(lift), black_box(x), u)
        };
        assert!(reading() && rows());
        let mut room = vec![kernels::four_of(0); 4 * inner];
        let mut sums = vec![0; input.sums.len()];
        let sums = move || {
            let (a, b) = (black_box(&a), black_box(&b));
            kernels::sums(a, b, black_box(columns), &mut room, black_box(&mut sums))
        };
        let mut output = vec![0; ticket.len()];
        let records = move || {
            let parts = [&input.a, &input.b, &quotients, &remainders];
            let [a, b, quotients, remainders] = parts.map(|numbers| &numbers[..]);
            let parts = [(a, inner), (b, columns), (quotients, columns), (remainders, columns)];
            kernels::records(black_box(parts), black_box(&mut output))
        };
        Kernels {
            reading: clock.add(reading),
            product: clock.add(product),
            rows: clock.add(rows),
            sums: clock.add(sums),
            records: clock.add(records),
        }
    }
}
