//! Compares the proved code with a second program that was written from papers 01 and 02 alone: the functions of include/soe.h
//! as a host calls them, what the programs containment_table and test_readings and README's lines of a shell print, and the rest
//! through the program ledger_trace.
//!
//! `compare SEED ROUNDS LEDGER_TRACE CONTAINMENT_TABLE TEST_READINGS`, from the repository's root. It stops at the first
//! difference with exit status 1. `compare gain LEDGER_TRACE` prints the table of docs/WATTS.md.

mod containment;
mod day;
mod gain;
mod host;
mod host_cases;
mod instruction_cases;
mod instructions;
mod kilowatts;
mod model;
mod papers;
mod payment;
mod payment_cases;
mod random;
mod readme;
mod stacking;
mod tally;
mod test_day;
mod test_day_cases;
mod trace;
mod trace_cases;

use random::Random;
use tally::Tally;
use trace::Runs;

fn main() {
    let arguments: Vec<String> = std::env::args().skip(1).collect();
    let words: Vec<&str> = arguments.iter().map(String::as_str).collect();
    match words[..] {
        ["gain", ledger_trace] => {
            let runs = &mut Runs::new(ledger_trace.to_string());
            for row in gain::table(runs, &mut Tally::default()) {
                println!("{row}");
            }
        }
        [seed, rounds, ledger_trace, containment_table, test_readings] => {
            let (Ok(seed), Ok(rounds)) = (seed.parse(), rounds.parse()) else {
                usage();
            };
            compare(seed, rounds, ledger_trace, containment_table, test_readings);
        }
        _ => usage(),
    }
}

fn usage() -> ! {
    eprintln!("compare SEED ROUNDS LEDGER_TRACE CONTAINMENT_TABLE TEST_READINGS");
    eprintln!("compare gain LEDGER_TRACE");
    std::process::exit(2);
}

fn compare(
    seed: u64,
    rounds: u64,
    ledger_trace: &str,
    containment_table: &str,
    test_readings: &str,
) {
    let random = &mut Random::new(seed);
    let tally = &mut Tally::default();
    let runs = &mut Runs::new(ledger_trace.to_string());

    papers::compare(runs, tally);
    containment::compare(containment_table, tally);
    day::compare(runs, tally);
    gain::compare(runs, tally);
    test_day_cases::readme(tally);
    stacking::readme(tally);
    host_cases::damaged_reports(tally);
    stacking::edges(tally);
    host_cases::quantity_edges(tally);
    payment_cases::edges(random, tally);
    test_day_cases::edges(tally);
    test_day_cases::lines(test_readings, tally);
    instruction_cases::edges(tally);
    instruction_cases::damaged(tally);
    instruction_cases::lists(random, 2_000, tally);
    trace_cases::energy_edges(random, runs, tally);
    kilowatts::edges(runs, tally);
    trace_cases::table_edges(random, runs, tally);
    trace_cases::count_edges(runs, tally);
    trace_cases::block_edges(runs, tally);
    trace_cases::malformed(runs, tally);
    for _ in 0..rounds {
        host_cases::terms(random, 1_000, tally);
        host_cases::quantity(random, 1_000, tally);
        host_cases::reports(random, 1_000, tally);
        host_cases::damaged_random_report(random, tally);
        stacking::any(random, 200, tally);
        payment_cases::any(random, 500, tally);
        test_day_cases::any(random, 50, tally);
        test_day_cases::any_line(random, test_readings, tally);
        instruction_cases::lists(random, 50, tally);
        instruction_cases::made_up(random, 500, tally);
        instruction_cases::any_damaged(random, 500, tally);
        for _ in 0..4 {
            runs.add(trace_cases::energy(random), tally);
            runs.add(kilowatts::any(random), tally);
            runs.add(kilowatts::small(random), tally);
            runs.add(trace_cases::block(random), tally);
            runs.add(trace_cases::opening(random), tally);
            runs.add(trace_cases::list(random), tally);
            runs.add(trace_cases::made_up(random), tally);
        }
        for script in trace_cases::two_lists(random) {
            runs.add(script, tally);
        }
        runs.add(trace_cases::energy_refusals(random), tally);
        runs.add(trace_cases::both_rates(random), tally);
        runs.add(trace_cases::opening_causes(random), tally);
        runs.add(trace_cases::broken_closings(random), tally);
        runs.add(trace_cases::blank_record(random), tally);
    }
    runs.run(tally);

    println!("cases by topic and call, and how many gave which refusal (0: none)");
    tally.print();
    println!("events of lists by the state before and the state once what was due has happened, and how often each led where");
    tally.print_kinds();
    instruction_cases::all_reached(tally);
    println!("bounds by readings of the period and direction, and how many are how many kWh below those by kilowatts");
    tally.print_falls();
    kilowatts::all_reached(tally);
    println!("payments by the side of 0 on which the exact sum lies, and how many lie where above the whole number below");
    tally.print_amounts();
    payment_cases::all_reached(tally);
    println!("starts of two contracts as one, beside the sum of the two separate starts");
    tally.print_stacked();
    stacking::all_reached(tally);
    println!("readings of test days");
    tally.print_readings();
    test_day_cases::all_reached(tally);
    println!(
        "compare: {} cases, no difference (seed {seed})",
        tally.total()
    );
}
