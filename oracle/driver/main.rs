//! Runs the Rust beside ours.
//!   driver compare SEED COUNT          with the static library
//!   driver record SEED COUNT           prints answers of the Rust to be stored
//!   driver model SCRIPT SEED COUNT     the Rust with tools/model.py
//!   driver own SCRIPT SEED COUNT       the static library with tools/model.py, also where the Rust is no judge

mod case;
mod compare;
mod display;
mod fonts;
mod generate;
mod left_out;
mod linked;
mod model_side;
mod random;
mod record;
mod rust_side;
mod sequences;
mod shrink;
mod step;
mod sums;

use case::{Call, Case, Outcome};
use compare::Verdict;

fn run(seed: u64, count: u64, mut ours: impl FnMut(&Case, Call) -> Outcome) -> bool {
    let mut cases = generate::Cases::new(seed);
    let mut tally = compare::Tally::default();
    for _ in 0..count {
        let case = cases.next();
        let measured = ours(&case, Call::Measure);
        for call in Call::ALL {
            let answer = ours(&case, call);
            tally.add(&case, call, compare::verdict(&case, call, &answer, &measured));
        }
    }
    println!("seed {seed}, {count} cases");
    tally.print();
    compare::explain(&tally, ours);
    tally.different.is_empty()
}

/// Compares the library with the model on every case, with each alignment.
fn own(seed: u64, count: u64, mut model: model_side::Model) -> bool {
    let mut cases = generate::Cases::new(seed);
    let mut tally = compare::Tally::default();
    for _ in 0..count {
        let case = cases.next();
        let measured = linked::call(&case, Call::Measure);
        for call in Call::ALL.into_iter().chain(Call::OURS) {
            let ours = linked::call(&case, call);
            let name = compare::outcome_name(&ours.answer).to_string();
            let same = ours.same(&model.call(&case, call)) && sums::wrong(&case, call, &ours, &measured).is_none();
            if !same {
                println!("{call:?}\n{case}");
            }
            tally.add(&case, call, if same { Verdict::Same(name) } else { Verdict::Different(name) });
        }
    }
    println!("seed {seed}, {count} cases");
    tally.print();
    tally.different.is_empty()
}

fn main() {
    rust_side::silence_panics();
    let args: Vec<String> = std::env::args().skip(1).collect();
    let number = |i: usize, or: u64| args.get(i).map_or(or, |a| a.parse().expect("a number"));
    let good = match args.first().map(String::as_str) {
        Some("compare") => run(number(1, 1), number(2, 1_000_000), linked::call),
        Some("record") => {
            record::record(number(1, 1), number(2, 100_000));
            true
        }
        Some("own") => own(number(2, 1), number(3, 1000), model_side::Model::start(&args[1])),
        Some("model") => {
            let mut model = model_side::Model::start(&args[1]);
            run(number(2, 1), number(3, 1000), |case, call| model.call(case, call))
        }
        _ => {
            eprintln!("usage: driver compare SEED COUNT, driver record SEED COUNT, or driver model|own SCRIPT SEED COUNT");
            false
        }
    };
    std::process::exit(if good { 0 } else { 1 });
}
