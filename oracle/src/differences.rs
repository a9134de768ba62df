//! docs/DIFFERENCES.md, run: for each difference its smallest input on both sides, and what each answers. "Ours" is the model, and with
//! a driver the port, which must answer as the model does. The rows that the document marks as run are those that are run here.

mod session;
mod sums_and_plans;

use crate::off::{Script, session_of};
use crate::wire::{Party, Request};
use session::{Both, session};
use std::collections::BTreeSet;
use sums_and_plans::sums_and_plans;

const DOCUMENT: &str = include_str!("../../docs/DIFFERENCES.md");

struct List<'a> {
    port: Option<&'a mut dyn Party>,
    run: BTreeSet<String>,
    wrong: u32,
    count: u32,
}

impl List<'_> {
    fn entry(&mut self, row: &str, text: &str, ours: (String, &str), rust: (String, &str)) {
        let right = ours.0 == ours.1 && rust.0 == rust.1;
        self.count += 1;
        self.wrong += u32::from(!right);
        self.run.insert(row.into());
        println!("{} {row} {text}\n     ours: {}\n     Rust: {}", if right { "  " } else { "NO" }, ours.0, rust.0);
        if !right {
            println!("     the list says: ours: {}; Rust: {}", ours.1, rust.1);
        }
    }

    fn asked(&mut self, found: impl FnOnce(&mut dyn Party) -> Result<(), String>) {
        let Some(port) = self.port.as_deref_mut() else { return };
        if let Err(text) = found(port) {
            self.wrong += 1;
            println!("NO the port answers otherwise than the model:\n{text}");
        }
    }

    /// the port beside the model: a sum or a plan
    fn ask(&mut self, request: Request) {
        self.asked(|port| {
            let mut script = Script::new(0x5a);
            script.add(request);
            script.run(port)
        });
    }

    /// the port beside the model: the calls of a session
    fn ask_session(&mut self, both: &Both) {
        self.asked(|port| session_of(&both.cfg, 1, &both.calls, port));
    }
}

/// The rows of the document that it says are run.
fn rows_to_run() -> BTreeSet<String> {
    let cells = |line: &str| line.trim_matches('|').split('|').map(|cell| cell.trim().to_string()).collect::<Vec<_>>();
    DOCUMENT
        .lines()
        .filter(|line| line.starts_with("| "))
        .map(cells)
        .filter(|row| row.last().is_some_and(|c| c == "run"))
        .map(|row| row[0].clone())
        .collect()
}

pub fn run(port: Option<&mut dyn Party>) -> Result<(), String> {
    let mut list = List { port, run: BTreeSet::new(), wrong: 0, count: 0 };
    sums_and_plans(&mut list);
    session(&mut list);
    for row in rows_to_run().symmetric_difference(&list.run) {
        list.wrong += 1;
        println!("NO {row} is run and not so marked in the document, or marked and not run");
    }
    let by = if list.port.is_some() { ", and by the port" } else { "" };
    println!("{} inputs of {} differences run{by}, {} not as listed", list.count, list.run.len(), list.wrong);
    if list.wrong > 0 { Err("the list is wrong".into()) } else { Ok(()) }
}
