//! Requests with the model's answers, put to a party; what it answers otherwise is shrunk and told in words.

use crate::wire::{self, Model, Party, RING_ROOM, Request};

/// A list of requests and the model's answers.
pub struct Script {
    pub model: Model,
    pub(super) requests: Vec<Request>,
    answers: Vec<Vec<u8>>,
    /// requests at the front that a shrunk script keeps
    pub(super) kept: usize,
}

impl Script {
    pub fn new(pattern: u8) -> Script {
        let mut script = Script { model: Model::new(), requests: Vec::new(), answers: Vec::new(), kept: 2 };
        script.add(wire::fill(pattern));
        script.add(wire::state(1));
        script
    }

    pub fn add(&mut self, request: Request) {
        let answer = self.model.ask(&request.bytes).expect("the model answers");
        self.requests.push(request);
        self.answers.push(answer);
    }

    pub fn len(&self) -> usize {
        self.requests.len()
    }

    pub(super) fn answered(&self, i: usize) -> &[u8] {
        &self.answers[i]
    }

    /// the first request that the party answers otherwise
    fn compare(&self, party: &mut dyn Party) -> Option<(usize, String)> {
        let batch: Vec<u8> = self.requests.iter().flat_map(|r| r.bytes.iter().copied()).collect();
        let given = match party.ask(&batch) {
            Ok(given) => given,
            Err(text) => {
                if let Err(text) = party.restart() {
                    panic!("{text}");
                }
                return Some((self.requests.len() - 1, text));
            }
        };
        let mut at = 0;
        for (i, answer) in self.answers.iter().enumerate() {
            let end = (at + answer.len()).min(given.len());
            if given[at..end] != answer[..] {
                return Some((i, told(self.requests[i].bytes[0], answer, &given[at..end])));
            }
            at = end;
        }
        (at != given.len()).then(|| (self.requests.len() - 1, "the party answers more".into()))
    }

    fn again(requests: &[Request], full: bool) -> Script {
        let mut script = Script { model: Model::new(), requests: Vec::new(), answers: Vec::new(), kept: 0 };
        for request in requests {
            let request = if full && request.bytes[0] == 0x04 { wire::state(2) } else { request.clone() };
            script.add(request);
        }
        script
    }

    /// Ok, or the difference in words, after a shrunk list of requests
    pub fn run(&self, party: &mut dyn Party) -> Result<(), String> {
        let Some((at, first)) = self.compare(party) else { return Ok(()) };
        let mut requests = self.requests[..=at].to_vec();
        let mut size = requests.len();
        while size > 0 {
            let mut at = self.kept;
            while at < requests.len() {
                let mut fewer = requests.clone();
                fewer.drain(at..(at + size).min(requests.len()));
                match Script::again(&fewer, false).compare(party) {
                    Some((last, _)) => {
                        fewer.truncate(last + 1);
                        requests = fewer;
                    }
                    None => at += size,
                }
            }
            size /= 2;
        }
        let mut text = String::new();
        for (i, request) in requests.iter().enumerate() {
            text.push_str(&format!("  {i}: {}\n", request.text));
        }
        let difference = Script::again(&requests, true).compare(party).map_or(format!("(not seen again) {first}"), |(_, d)| d);
        Err(format!("{text}  -> {difference}"))
    }
}

/// a difference in words: the answer, or the part of the state
fn told(op: u8, model: &[u8], party: &[u8]) -> String {
    let Some(at) = (0..model.len()).find(|i| party.get(*i) != Some(&model[*i])) else {
        return format!("the party answers more: {party:02x?}");
    };
    let head = match op {
        0x10 | 0x17 => 4,
        0x11 => 36 + 64,
        0x13 => 36,
        0x12..=0x16 => 12,
        0x30 => 12 + 4 * 28,
        0x31 => 8 + 3 * 28,
        _ => model.len(),
    };
    let both = |from: usize, width: usize| {
        let part = |b: &[u8]| b.get(from..from + width).map_or("nothing".into(), |b| format!("{b:02x?}"));
        format!("model {}, party {}", part(model), part(party))
    };
    if at < head {
        return format!("answer, byte {at}:\n     model {:02x?}\n     party {:02x?}", &model[..head], &party[..head.min(party.len())]);
    }
    if model.len() == head + 8 {
        return "the state".into();
    }
    let place = at - head;
    match (op, place) {
        (0x30 | 0x31, _) => format!("array word {}: {}", place / 4, both(head + place / 4 * 4, 4)),
        (_, 0..wire::SESSION_ROOM) => format!("session byte {place}: {}", both(at, 1)),
        (_, p) if p < wire::SESSION_ROOM + 4 * RING_ROOM => {
            let word = (p - wire::SESSION_ROOM) / 4;
            format!("ring word {word}: {}", both(head + wire::SESSION_ROOM + 4 * word, 4))
        }
        (_, p) => {
            let word = (p - wire::SESSION_ROOM - 4 * RING_ROOM) / 8;
            format!("result {word}: {}", both(head + wire::SESSION_ROOM + 4 * RING_ROOM + 8 * word, 8))
        }
    }
}
