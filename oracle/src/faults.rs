//! Demand 3, and the wrong changes of the model that some comparison must see.

use crate::arguments::Args;
use crate::slips::{Slip, set_slip};
use crate::{demand3, off, wire};
#[cfg(lifted)]
use crate::{diff, diff_plan, diff_sums};

/// the slips that the check of demand 3 must see
const FAULTS: [Slip; 13] = [
    Slip::NoGuard,
    Slip::StatusFirst,
    Slip::SettledAddress,
    Slip::CapacityWhole,
    Slip::RecoverAfter,
    Slip::RecoverIdle,
    Slip::RecoverLast,
    Slip::EndReverse,
    Slip::EndKeepsRing,
    Slip::EndKeepsStart,
    Slip::CursorShort,
    Slip::CutSpends,
    Slip::AddressStays,
];

pub fn about_demand3(args: &Args) -> Result<(), String> {
    println!("small rings, every state that can be reached:");
    let small = demand3::small(args.largest, 400_000, false)?;
    println!("{} cuts checked over {} states, no counterexample", small.cuts, small.states);
    let walk = demand3::walk(args.seed, args.cuts, false)?;
    println!(
        "real rings: {} cuts checked in {} runs ({} submissions, {} of them with requests pending), no counterexample",
        walk.cuts, walk.runs, walk.submissions, walk.with_pending
    );
    println!(
        "  stronger readings that are false: a pending slot at the new cursor {} times, an active slot's address word zero {} times",
        walk.at_cursor, walk.address_zero
    );
    println!("the check sees faults:");
    let missed = FAULTS.iter().filter(|fault| !is_caught(**fault, args.seed)).count() + usize::from(!are_numbers_caught(args.seed));
    println!("demand 3: {} cuts, no counterexample; {} faults, {missed} not caught", small.cuts + walk.cuts, FAULTS.len() + 1);
    if missed > 0 { Err(format!("{missed} faults not caught")) } else { Ok(()) }
}

/// whether demand 3's check sees the fault; prints where
fn is_caught(fault: Slip, seed: u64) -> bool {
    set_slip(fault);
    let found = demand3::small(3, 20_000, true)
        .err()
        .map(|e| ("small rings", e))
        .or_else(|| demand3::walk(seed, 400_000, false).err().map(|e| ("real rings", e)));
    set_slip(Slip::None);
    match &found {
        Some((where_found, text)) => println!("  {}: caught ({where_found}): {}", fault.text(), text.lines().next().unwrap_or("")),
        None => println!("  {}: NOT CAUGHT", fault.text()),
    }
    found.is_some()
}

/// the same of runs that break what the demand asks of the caller
fn are_numbers_caught(seed: u64) -> bool {
    let found = demand3::walk(seed, 2_000_000, true);
    match &found {
        Err(text) => println!("  request numbers used up twice: caught (real rings): {}", text.lines().next().unwrap_or("")),
        Ok(_) => println!("  request numbers used up twice: NOT CAUGHT"),
    }
    found.is_err()
}

/// the comparison that sees a slip, and what it said: short runs first, since they see most
fn caught(slip: Slip, seed: u64) -> Option<(&'static str, String)> {
    let mut slipped = wire::Slipped { model: wire::Model::new(), slip };
    for (calls, plans) in [(10_000, 2_000), (400_000, 40_000)] {
        let seen = against_rust(slip, seed, calls, plans)
            .or_else(|| off::session(seed, calls, &mut slipped).err().map(|e| ("model, session", e)))
            .or_else(|| off::plans(seed, plans, false, &mut slipped).err().map(|e| ("model, plans", e)))
            .or_else(|| sums_against_rust(slip, seed))
            .or_else(|| off::sums(seed, false, &mut slipped).err().map(|e| ("model, sums", e)))
            .or_else(|| slipping(slip, || demand3::small(3, 20_000, true)).map(|e| ("demand 3", e)));
        if seen.is_some() {
            return seen;
        }
    }
    None
}

/// what a check of the model says while the model slips
fn slipping<T>(slip: Slip, check: impl FnOnce() -> Result<T, String>) -> Option<String> {
    set_slip(slip);
    let found = check().err();
    set_slip(Slip::None);
    found
}

#[cfg(lifted)]
fn against_rust(slip: Slip, seed: u64, calls: u64, plans: u64) -> Option<(&'static str, String)> {
    slipping(slip, || diff::session(seed, calls, None))
        .map(|e| ("Rust, session", e))
        .or_else(|| slipping(slip, || diff_plan::plans(seed, plans)).map(|e| ("Rust, plans", e)))
}

#[cfg(lifted)]
fn sums_against_rust(slip: Slip, seed: u64) -> Option<(&'static str, String)> {
    slipping(slip, || diff_sums::sums(seed, false)).map(|e| ("Rust, sums", e))
}

#[cfg(not(lifted))]
fn against_rust(_slip: Slip, _seed: u64, _calls: u64, _plans: u64) -> Option<(&'static str, String)> {
    None
}

#[cfg(not(lifted))]
fn sums_against_rust(_slip: Slip, _seed: u64) -> Option<(&'static str, String)> {
    None
}

pub fn all_slips(args: &Args) -> Result<(), String> {
    let mut missed = 0;
    for slip in Slip::ALL {
        match caught(*slip, args.seed) {
            Some((by, text)) => println!("{:60} seen by: {by}: {}", slip.text(), text.lines().last().unwrap_or("").trim()),
            None => {
                missed += 1;
                println!("{:60} NOT SEEN", slip.text());
            }
        }
    }
    println!("{} wrong changes, {missed} not seen", Slip::ALL.len());
    if missed > 0 { Err("not all are seen".into()) } else { Ok(()) }
}
