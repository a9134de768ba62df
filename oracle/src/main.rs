//! Document 01's oracle: `oracle help`.

mod arguments;
mod commands;
mod demand3;
#[cfg(lifted)]
mod diff;
#[cfg(lifted)]
mod diff_plan;
#[cfg(lifted)]
mod diff_sums;
#[cfg(lifted)]
mod differences;
mod faults;
mod gen_calls;
mod gen_plans;
mod layout;
#[cfg(lifted)]
mod list;
mod model;
mod model_plan;
mod off;
mod rng;
mod slips;
mod wire;
mod worked;

use arguments::args;
use std::process::ExitCode;

const HELP: &str = "\
oracle rust [--seed S] [--calls N] [--plans N] [--whole]     the model beside the lifted Rust, on demand 2's domain
oracle port [--seed S] [--calls N] [--plans N] [--whole] [--session-only] [--off-only] -- DRIVER ARGS..
                                                             a driver of the port beside the model and the lifted Rust
oracle demand3 [--seed S] [--cuts N] [--largest R]           demand 3 by brute force
oracle worked                                                01's worked numbers P1 to P8, on both sides
oracle differences [-- DRIVER ARGS..]                        docs/DIFFERENCES.md, run on both sides, and by the port
oracle list [--seed S]                                       the stored list (crates/replay/stdin)
oracle slips [--seed S]                                      every small wrong change of the model is seen
oracle serve [--slip NAME]                                   the model as a driver, on standard input and output
";

fn main() -> ExitCode {
    let done = args().and_then(|args| match args.command.as_str() {
        "rust" => {
            commands::sources();
            commands::rust(&args)
        }
        "port" => {
            commands::sources();
            commands::port(&args)
        }
        "demand3" => faults::about_demand3(&args),
        "worked" => worked::run(),
        "differences" => commands::differences(&args),
        "list" => commands::list(&args),
        "slips" => faults::all_slips(&args),
        "serve" => commands::serve(args.slip),
        _ => {
            print!("{HELP}");
            Ok(())
        }
    });
    match done {
        Ok(()) => ExitCode::SUCCESS,
        Err(text) => {
            println!("MISMATCH or failure:\n{text}");
            ExitCode::FAILURE
        }
    }
}
