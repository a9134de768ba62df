//! Reads what callgrind wrote of each row, and what the copies were.

use std::collections::BTreeMap;
use std::fs;
use std::path::Path;

/// Where the instructions of a call of the port lie.
#[derive(Clone, Default)]
pub struct Parts {
    pub total: f64,
    /// the walk that checks layout and record
    pub checks: f64,
    pub copies: f64,
}

impl Parts {
    /// what is left: the call itself
    pub fn call(&self) -> f64 {
        self.total - self.checks - self.copies
    }

    fn add(&mut self, function: &str, cost: f64) {
        self.total += cost;
        match function {
            f if ["scan", "verdict", "plain"].iter().any(|m| f.contains(&format!("port::{m}::"))) => self.checks += cost,
            f if f.contains("memcpy") || f.contains("memmove") || f.contains("memset") => self.copies += cost,
            _ => {}
        }
    }
}

pub struct Counts {
    /// by side and name of the row
    parts: BTreeMap<(String, String), Parts>,
    copies: BTreeMap<String, (u64, u64)>,
}

/// one file of callgrind's: side, name of the row, instructions a call
fn read(text: &str) -> Option<((String, String), Parts)> {
    let trigger = text.lines().find_map(|l| l.strip_prefix("desc: Trigger: Client Request: "))?;
    let mut words = trigger.splitn(3, '/');
    let (side, calls, name) = (words.next()?, words.next()?.parse::<f64>().ok()?, words.next()?);
    let (mut parts, mut function, mut called) = (Parts::default(), "", false);
    for line in text.lines() {
        if let Some(name) = line.strip_prefix("fn=") {
            function = name;
        } else if line.starts_with("calls=") {
            // the next line is what the callee cost
            called = true;
        } else if line.starts_with(|c: char| c.is_ascii_digit()) {
            let cost: f64 = line.split_whitespace().nth(1)?.parse().ok()?;
            if !std::mem::take(&mut called) {
                parts.add(function, cost / calls);
            }
        }
    }
    Some(((side.into(), name.into()), parts))
}

impl Counts {
    /// from the folder of callgrind's files with the file `copies` among them
    pub fn read(folder: &Path) -> Counts {
        let files = fs::read_dir(folder).expect("the folder of the counts");
        let texts = files.filter_map(|f| fs::read_to_string(f.ok()?.path()).ok());
        let parts = texts.filter_map(|text| read(&text)).collect();
        let text = fs::read_to_string(folder.join("copies")).expect("the copies");
        let copies = text.lines().filter_map(|line| {
            let mut cells = line.split('\t');
            Some((cells.next()?.to_string(), (cells.next()?.parse().ok()?, cells.next()?.parse().ok()?)))
        });
        Counts { parts, copies: copies.collect() }
    }

    pub fn of(&self, side: &str, name: &str) -> Option<&Parts> {
        self.parts.get(&(side.to_string(), name.to_string()))
    }

    /// calls of memcpy and memset, and their bytes
    pub fn copies(&self, name: &str) -> (u64, u64) {
        self.copies.get(name).copied().unwrap_or_default()
    }
}
