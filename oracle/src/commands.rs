//! The commands that compare, and the one that serves.

use crate::arguments::Args;
use crate::off;
use crate::slips::Slip;
use crate::wire::{self, Party, Pipe};
#[cfg(lifted)]
use crate::{diff, diff_plan, diff_sums};
use std::io::{Read, Write};

pub fn sources() {
    println!("{}\n{}", lifted::ISO_SOURCE, lifted::NON_ISO_SOURCE);
}

/// Where there is no Rust at hand, the comparison is passed over; under CI=true that is a failure.
#[cfg(not(lifted))]
fn without_rust() -> Result<(), String> {
    let text = "the Rust sources are not at hand: the comparison with them is passed over";
    if std::env::var("CI").is_ok_and(|v| v == "true") {
        return Err(format!("{text}, which CI=true does not allow"));
    }
    println!("{text}");
    Ok(())
}

#[cfg(lifted)]
pub fn rust(args: &Args) -> Result<(), String> {
    println!("{} ring sums, no mismatch", diff_sums::sums(args.seed, args.whole)?);
    let (plans, refused) = diff_plan::borders(args.seed, args.whole)?;
    println!("{plans} plans at the borders, no mismatch ({refused} off the domain were passed over)");
    let (plans, refused) = diff_plan::plans(args.seed, args.plans)?;
    println!("{plans} plans, no mismatch ({refused} off the domain were passed over)");
    diff::session(args.seed, args.calls, None)?.print();
    Ok(())
}

#[cfg(not(lifted))]
pub fn rust(_args: &Args) -> Result<(), String> {
    without_rust()
}

#[cfg(lifted)]
pub fn differences(args: &Args) -> Result<(), String> {
    if args.driver.is_empty() {
        return crate::differences::run(None);
    }
    crate::differences::run(Some(&mut Pipe::start(&args.driver)?))
}

#[cfg(not(lifted))]
pub fn differences(_args: &Args) -> Result<(), String> {
    without_rust()
}

#[cfg(lifted)]
pub fn list(args: &Args) -> Result<(), String> {
    crate::list::run(args.seed)
}

#[cfg(not(lifted))]
pub fn list(_args: &Args) -> Result<(), String> {
    without_rust()
}

#[cfg(lifted)]
fn three(args: &Args, party: &mut dyn Party) -> Result<(), String> {
    println!("on the domain, the driver, the model and the lifted Rust:");
    diff::session(args.seed, args.calls, Some(party))?.print();
    Ok(())
}

#[cfg(not(lifted))]
fn three(_args: &Args, _party: &mut dyn Party) -> Result<(), String> {
    without_rust()
}

pub fn port(args: &Args) -> Result<(), String> {
    if args.driver.is_empty() {
        return Err("no driver given".into());
    }
    let mut driver = Pipe::start(&args.driver)?;
    let name = driver.name();
    if !args.off_only {
        three(args, &mut driver)?;
    }
    off::session(args.seed, args.calls, &mut driver)?.print(&name);
    if args.session_only {
        println!("sums and planning: passed over (--session-only)");
        return Ok(());
    }
    println!("{} ring sums beside {name}, no mismatch", off::sums(args.seed, args.whole, &mut driver)?);
    println!("{} plans beside {name}, no mismatch", off::plans(args.seed, args.plans, args.whole, &mut driver)?);
    Ok(())
}

/// the model in the place of a driver
pub fn serve(slip: Slip) -> Result<(), String> {
    let mut party = wire::Slipped { model: wire::Model::new(), slip };
    let (mut input, mut output) = (std::io::stdin().lock(), std::io::stdout().lock());
    loop {
        let mut head = [0; 4];
        if input.read_exact(&mut head).is_err() {
            return Ok(());
        }
        let mut batch = vec![0; u32::from_le_bytes(head) as usize];
        input.read_exact(&mut batch).map_err(|e| e.to_string())?;
        let answer = party.ask(&batch)?;
        output.write_all(&(answer.len() as u32).to_le_bytes()).map_err(|e| e.to_string())?;
        output.write_all(&answer).map_err(|e| e.to_string())?;
        output.flush().map_err(|e| e.to_string())?;
    }
}
