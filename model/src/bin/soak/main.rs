//! Long random runs: the steps that the program `soak` of the product takes, taken
//! by the model. The two outputs are to be equal to the byte (docs/SOAK.md).
//!
//! Five numbers come on standard input, with anything between them that is no
//! digit: the first table, how many tables, steps a table, after every how many
//! steps the tables are digested, and whether (1) each step is shown.

mod counts;
mod draw;
mod show;
mod table;
mod wrong;

use std::io::{self, BufWriter, Read, Write};
use std::process::ExitCode;

use berduzhika_model::random::next;
use berduzhika_model::Answer;
use counts::Counts;
use draw::draw;
use table::Table;
use wrong::Wrong;

struct Plan {
    first: u64,
    tables: u64,
    steps: u64,
    every: u64,
    show: bool,
    wrong: Wrong,
}

impl Plan {
    /// Numbers that are not there are 0; tables are digested after every step at the most.
    fn read(text: &str, wrong: Wrong) -> Plan {
        let words = text.split(|c: char| !c.is_ascii_digit());
        let mut numbers = words.filter_map(|word| word.parse().ok());
        let mut number = || numbers.next().unwrap_or(0);
        Plan {
            first: number(),
            tables: number(),
            steps: number(),
            every: number().max(1),
            show: number() == 1,
            wrong,
        }
    }
}

/// What a table's steps came to.
struct Run {
    done: u64,
    refused: u64,
    /// How often the tables' digest was not the one before it.
    changed: u64,
    answers: u64,
    tables: u64,
    last: u64,
}

impl Run {
    fn new(table: &mut Table) -> Run {
        Run {
            done: 0,
            refused: 0,
            changed: 0,
            answers: 1,
            tables: 1,
            last: table.digest(),
        }
    }

    fn answered(&mut self, answer: Answer) {
        let said = u64::from(answer.status) << 32 | u64::from(answer.value);
        self.answers = next(self.answers ^ said);
        self.done += u64::from(answer.status == 0);
        self.refused += u64::from(answer.status != 0);
    }

    fn digested(&mut self, digest: u64) {
        self.tables = next(self.tables ^ digest);
        self.changed += u64::from(digest != self.last);
        self.last = digest;
    }
}

fn run_table(
    plan: &Plan,
    table: &mut Table,
    counts: &mut Counts,
    out: &mut impl Write,
) -> io::Result<Run> {
    let mut run = Run::new(table);
    let mut x = table.steps_from;
    for number in 1..=plan.steps {
        let drawn = draw(table, x);
        x = drawn.x;
        let answer = table.take(drawn.step, drawn.off);
        let answer = plan.wrong.spoil(table, drawn.step, answer);
        run.answered(answer);
        counts.add(&drawn, answer);
        if number.is_multiple_of(plan.every) || number == plan.steps {
            run.digested(table.digest());
        }
        if plan.show {
            show::show(out, number, &drawn, answer, run.last)?;
        }
    }
    Ok(run)
}

fn print_table(out: &mut impl Write, number: u64, table: &Table, run: &Run) -> io::Result<()> {
    let shape = table.shape;
    write!(out, "table={number} lines={}", shape.lines)?;
    write!(out, " espi={} eppi={}", shape.espi, shape.eppi)?;
    write!(out, " mbis={} done={}", u8::from(shape.mbis), run.done)?;
    write!(out, " refused={} changed={}", run.refused, run.changed)?;
    write!(out, " answers={:016x}", run.answers)?;
    writeln!(out, " tables={:016x}", run.tables)
}

fn soak(plan: &Plan, out: &mut impl Write) -> io::Result<()> {
    let mut counts = Counts::new();
    for number in plan.first..plan.first.saturating_add(plan.tables) {
        let mut table = Table::new(number);
        let run = run_table(plan, &mut table, &mut counts, out)?;
        print_table(out, number, &table, &run)?;
    }
    counts.print(out)?;
    out.flush()
}

fn main() -> ExitCode {
    let word = std::env::args().nth(1);
    let Some(wrong) = Wrong::from_word(word.as_deref()) else {
        eprintln!("soak: no word but --wrong-record, --wrong-answer and --wrong-side is known");
        return ExitCode::FAILURE;
    };
    let mut text = String::new();
    let done = io::stdin()
        .read_to_string(&mut text)
        .and_then(|_| soak(&Plan::read(&text, wrong), &mut BufWriter::new(io::stdout())));
    match done {
        Ok(()) => ExitCode::SUCCESS,
        Err(error) => {
            eprintln!("soak: {error}");
            ExitCode::FAILURE
        }
    }
}
