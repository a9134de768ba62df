//! What stands behind `oracle` on the command line.

use crate::HELP;
use crate::slips::Slip;

pub struct Args {
    pub command: String,
    pub seed: u64,
    pub calls: u64,
    pub plans: u64,
    pub cuts: u64,
    pub largest: u16,
    pub whole: bool,
    pub session_only: bool,
    pub off_only: bool,
    pub slip: Slip,
    pub driver: Vec<String>,
}

pub fn args() -> Result<Args, String> {
    let mut words = std::env::args().skip(1);
    let mut args = Args {
        command: words.next().unwrap_or("help".into()),
        seed: 1,
        calls: 100_000,
        plans: 20_000,
        cuts: 1_000_000,
        largest: 4,
        whole: false,
        session_only: false,
        off_only: false,
        slip: Slip::None,
        driver: Vec::new(),
    };
    while let Some(word) = words.next() {
        let mut number = || words.next().and_then(|n| n.parse::<u64>().ok()).ok_or(format!("{word}: a number is missing"));
        match word.as_str() {
            "--seed" => args.seed = number()?,
            "--calls" => args.calls = number()?,
            "--plans" => args.plans = number()?,
            "--cuts" => args.cuts = number()?,
            "--largest" => args.largest = number()? as u16,
            "--whole" => args.whole = true,
            "--session-only" => args.session_only = true,
            "--off-only" => args.off_only = true,
            "--slip" => {
                let name = words.next().unwrap_or_default();
                args.slip = *Slip::ALL.iter().find(|s| format!("{s:?}") == name).ok_or(format!("{name}: no slip"))?;
            }
            "--" => args.driver = words.by_ref().collect(),
            _ => return Err(format!("{word}: not known\n{HELP}")),
        }
    }
    Ok(args)
}
