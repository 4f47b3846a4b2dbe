//! An independent cabinet of each kind under the load of `crates/load`: the same lines are printed.
use std::collections::VecDeque;

const PORTS: usize = 8;

#[derive(Clone, Copy)]
struct Frame {
    flow: u8,
    len: u64,
    entry: u64,
    due: u64,
    /// Prompt only: the slot by which the own line has sent it.
    sent: u64,
}

#[derive(Clone, Copy)]
enum Kind {
    Latest,
    Gathering { period: u64 },
    Prompt { speed: u64, latency: u64 },
}

struct Port {
    rate: u64,
    latency: u64,
    stay: u64,
    shortest: u64,
    finish: u64,
    own: u64,
    line: VecDeque<Frame>,
}

struct Cabinet {
    kind: Kind,
    slot: u64,
    ports: Vec<Port>,
}

fn up(a: u64, b: u64) -> u64 {
    a.div_ceil(b)
}

impl Cabinet {
    fn new(kind: Kind) -> Cabinet {
        let port = || Port {
            rate: 100,
            latency: 20,
            stay: 5,
            shortest: 1000,
            finish: 0,
            own: 0,
            line: VecDeque::with_capacity(32),
        };
        Cabinet { kind, slot: 0, ports: (0..PORTS).map(|_| port()).collect() }
    }

    /// The number of the refusal, or 0.
    fn put(&mut self, port: usize, mut frame: Frame) -> u8 {
        let Some(port) = self.ports.get_mut(port) else { return 40 };
        if frame.len < port.shortest || frame.len > 100_000 {
            return 41;
        }
        if port.line.len() == 32 {
            return 42;
        }
        let finish = port.finish.max(self.slot * port.rate) + frame.len;
        if finish > 20_000_000_000_000_000 {
            return 43;
        }
        if let Kind::Prompt { speed, latency } = self.kind {
            port.own = port.own.max(self.slot * speed) + frame.len;
            frame.sent = up(port.own, speed) + latency;
        }
        port.finish = finish;
        frame.entry = self.slot;
        frame.due = up(finish, port.rate) + port.latency;
        port.line.push_back(frame);
        0
    }

    fn take(&mut self, port: usize) -> Option<Frame> {
        let slot = self.slot;
        let port = self.ports.get_mut(port)?;
        let first = port.line.front()?;
        let stayed = first.entry + port.stay <= slot;
        let ready = match self.kind {
            Kind::Latest => first.due <= slot,
            Kind::Gathering { period } => slot % period == 0 && stayed || first.due <= slot,
            Kind::Prompt { .. } => first.sent <= slot && stayed,
        };
        if ready { port.line.pop_front() } else { None }
    }

    fn advance(&mut self) -> bool {
        let slot = self.slot;
        if slot >= 1_000_000_000_000 || self.ports.iter().any(|port| port.line.front().is_some_and(|first| first.due <= slot)) {
            return false;
        }
        self.slot += 1;
        true
    }
}

fn load(name: &str, kind: Kind, slots: u64) {
    let mut cabinet = Cabinet::new(kind);
    let (mut put, mut refused, mut sum, mut dice) = (0u64, 0u64, 0u64, 1u64);
    for _ in 0..slots {
        dice = dice.wrapping_mul(6364136223846793005).wrapping_add(1442695040888963407);
        let frame = Frame {
            flow: (dice >> 40) as u8 & 63,
            len: 900 + u64::from((dice >> 48) as u32 % 800),
            entry: 0,
            due: 0,
            sent: 0,
        };
        if cabinet.put((dice >> 33) as usize % PORTS, frame) == 0 { put += 1 } else { refused += 1 }
        for port in 0..PORTS {
            for _ in 0..32 {
                let Some(frame) = cabinet.take(port) else { break };
                let mark = frame.entry ^ frame.due.rotate_left(20) ^ u64::from(frame.flow).rotate_left(50);
                sum = sum.wrapping_mul(31).wrapping_add(mark);
            }
        }
        cabinet.advance();
    }
    println!("{name}: put {put}, refused {refused}, sum {sum}");
}

fn main() {
    let words: Vec<String> = std::env::args().skip(1).collect();
    let slots = words[0].parse().unwrap();
    for word in &words[1..] {
        let kind = match word.as_str() {
            "latest" => Kind::Latest,
            "gathering" => Kind::Gathering { period: 8 },
            "prompt" => Kind::Prompt { speed: 250, latency: 10 },
            _ => panic!("no such kind"),
        };
        load(word, kind, slots);
    }
}
