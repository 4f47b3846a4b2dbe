//! Random plan files from a fixed seed: whole ones, wrong ones and damaged ones.
use crate::calculation::{least_cells, Flow, Port};

/// A pseudo-random row of numbers (SplitMix64).
pub struct Dice(pub u64);

impl Dice {
    fn next(&mut self) -> u64 {
        self.0 = self.0.wrapping_add(0x9e37_79b9_7f4a_7c15);
        let mut z = self.0;
        z = (z ^ z >> 30).wrapping_mul(0xbf58_476d_1ce4_e5b9);
        z = (z ^ z >> 27).wrapping_mul(0x94d0_49bb_1331_11eb);
        z ^ z >> 31
    }

    /// A number from low to high, both included.
    fn from(&mut self, low: u64, high: u64) -> u64 {
        low + self.next() % (high - low + 1)
    }

    fn one_in(&mut self, n: u64) -> bool {
        self.next() % n == 0
    }

    fn of(&mut self, choices: &[u32]) -> u32 {
        choices[self.from(0, choices.len() as u64 - 1) as usize]
    }
}

/// A plan file yet to be written.
#[derive(Clone, Default)]
pub struct Draft {
    pub ports: Vec<Port>,
    pub flows: Vec<Flow>,
    pub rows: Vec<[u32; 8]>,
}

impl Draft {
    pub fn file(&self) -> Vec<u8> {
        let mut file = Vec::new();
        for port in &self.ports {
            file.push(b'P');
            for n in [port.rate, port.latency, port.stay, port.shortest] {
                file.extend(n.to_be_bytes());
            }
        }
        for flow in &self.flows {
            file.push(b'F');
            for n in [flow.rate, flow.burst, flow.shortest, flow.longest] {
                file.extend(n.to_be_bytes());
            }
            file.extend([flow.hops, flow.mask]);
            file.extend(flow.path);
        }
        for (f, row) in self.rows.iter().enumerate() {
            file.extend([b'B', f as u8]);
            for cell in row {
                file.extend(cell.to_be_bytes());
            }
        }
        file.push(b'E');
        file.extend(((self.ports.len() + self.flows.len() + self.rows.len()) as u32).to_be_bytes());
        file
    }
}

/// Ports that are alike, and as many flows as wanted, each round the ring from its own port.
pub fn ring(ports: usize, flows: usize, hops: usize, rate: u32, flow_rate: u32) -> Draft {
    let port = Port {
        rate,
        latency: 0,
        stay: 0,
        shortest: 512,
    };
    let flows = (0..flows).map(|f| {
        let mut path = [255; 8];
        for (hop, port) in path.iter_mut().take(hops).enumerate() {
            *port = ((f + hop) % ports) as u8;
        }
        Flow {
            rate: flow_rate,
            burst: 512,
            shortest: 512,
            longest: 512,
            hops: hops as u8,
            mask: 0,
            path,
        }
    });
    Draft {
        ports: vec![port; ports],
        flows: flows.collect(),
        rows: Vec::new(),
    }
}

/// A ring whose ports are all but full: it settles slowly, climbs, or does not end.
pub fn full_ring(dice: &mut Dice) -> Draft {
    let ports = dice.from(2, 12) as usize;
    let hops = dice.from(2, 8.min(ports as u64)) as usize;
    let rate = dice.of(&[1, 1, 2, 5, 25, 33, 100]);
    let mut draft = ring(
        ports,
        ports,
        hops,
        rate * hops as u32 + dice.of(&[0, 0, 0, 1, 2, 50]),
        rate,
    );
    let stay = dice.from(0, 512 / u64::from(draft.ports[0].rate)) as u32;
    for port in draft.ports.iter_mut() {
        port.stay = if dice.one_in(2) { 0 } else { stay };
    }
    for flow in draft.flows.iter_mut() {
        if dice.one_in(8) {
            flow.mask = 1 << (hops - 1);
        }
    }
    draft
}

/// A few flows with regulators that hold about 16 frames each.
pub fn held_back(dice: &mut Dice) -> Draft {
    let ports = dice.from(2, 8) as usize;
    let flows = dice.from(1, 2) as usize;
    let mut draft = ring(
        ports,
        flows,
        dice.from(2, ports as u64) as usize,
        dice.of(&[100, 1_000, 9_999]),
        1,
    );
    for flow in draft.flows.iter_mut() {
        flow.rate = dice.from(1, 20) as u32;
        flow.burst = 512 * dice.from(11, 16) as u32 + dice.from(0, 511) as u32;
        flow.mask = 2 | (dice.next() as u8 & 0xfe & ((1u16 << flow.hops) - 1) as u8);
    }
    draft
}

/// A path of different ports: round the ring, or anywhere.
fn path(dice: &mut Dice, ports: usize, ring: bool) -> (u8, [u8; 8]) {
    let hops = dice.from(1, 8.min(ports as u64)) as usize;
    let mut path = [255; 8];
    let first = dice.from(0, ports as u64 - 1) as usize;
    for hop in 0..hops {
        let mut port = (first + hop) % ports;
        while !ring && path[..hop].contains(&(port as u8)) || !ring && dice.one_in(2) {
            port = dice.from(0, ports as u64 - 1) as usize;
        }
        path[hop] = port as u8;
    }
    (hops as u8, path)
}

/// A kit that mostly keeps the limits of a plan.
pub fn whole(dice: &mut Dice, most_ports: u64, most_flows: u64) -> Draft {
    let fewest = u64::from(!dice.one_in(50));
    let ports = dice.from(fewest, most_ports) as usize;
    let flows = if ports == 0 {
        0
    } else {
        dice.from(0, most_flows) as usize
    };
    let ring = dice.one_in(2);
    let l = dice.of(&[512, 512, 513, 1_000, 1_500, 12_000]);
    let fill = dice.from(1, 8);
    let mut draft = Draft::default();
    for _ in 0..ports {
        let rate = if dice.one_in(3) {
            dice.from(1, 10_000) as u32
        } else {
            dice.of(&[3, 10, 100, 100, 1_000, 10_000])
        };
        let latency = if dice.one_in(2) { 0 } else { dice.from(0, 40) as u32 };
        let shortest = if dice.one_in(4) {
            dice.from(512, u64::from(l)) as u32
        } else {
            l
        };
        let stay = dice.from(0, u64::from(latency + shortest.div_ceil(rate))) as u32;
        draft.ports.push(Port {
            rate,
            latency,
            stay,
            shortest,
        });
    }
    let mut room: Vec<u32> = draft.ports.iter().map(|port| port.rate).collect();
    let mut regulators = 0;
    for _ in 0..flows {
        let (hops, path) = path(dice, ports, ring);
        let least = path[..hops as usize].iter().map(|&p| room[p as usize]).min().unwrap();
        if least == 0 && !dice.one_in(200) {
            continue;
        }
        let rate = if dice.one_in(12) {
            least.max(1)
        } else {
            dice.from(1, u64::from(least) / fill + 1) as u32
        };
        for &p in &path[..hops as usize] {
            room[p as usize] = room[p as usize].saturating_sub(rate);
        }
        let shortest = if dice.one_in(3) {
            dice.from(u64::from(l), u64::from(l) + 3_000) as u32
        } else {
            l
        };
        let longest = if dice.one_in(2) {
            shortest
        } else {
            dice.from(u64::from(shortest), u64::from(shortest) * 2) as u32
        };
        let burst = if dice.one_in(3) {
            dice.from(u64::from(longest), u64::from(longest) * 3) as u32
        } else {
            longest
        };
        let mut mask = 0;
        if hops > 1 && dice.one_in(3) && regulators < 30 {
            mask = dice.next() as u8 & 0xfe & ((1u16 << hops) - 1) as u8;
            regulators += mask.count_ones();
        }
        draft.flows.push(Flow {
            rate,
            burst,
            shortest,
            longest,
            hops,
            mask,
            path,
        });
    }
    if dice.one_in(2) {
        propose(dice, &mut draft);
    }
    draft
}

/// Rows at the least table, above it, below it, or of other makes.
fn propose(dice: &mut Dice, draft: &mut Draft) {
    let Some(cells) = least_cells(&draft.file()) else {
        for flow in &draft.flows {
            let mut row = [0; 8];
            row[..flow.hops as usize].fill(dice.from(u64::from(flow.burst), u64::from(flow.burst) * 4) as u32);
            draft.rows.push(row);
        }
        return;
    };
    draft.rows = cells[..draft.flows.len()].to_vec();
    if draft.rows.is_empty() {
        return;
    }
    let f = dice.from(0, draft.rows.len() as u64 - 1) as usize;
    let hop = dice.from(0, 7) as usize;
    match dice.from(0, 9) {
        0 | 1 => {}
        2 => draft.rows[f][hop] = draft.rows[f][hop].wrapping_sub(1),
        3 => draft.rows[f][hop] += 1,
        4 => draft.rows[f][hop] = dice.of(&[1_000_000_000, 1_000_000_001, u32::MAX]),
        5 => draft.rows.truncate(f),
        6 => draft.rows.push([0; 8]),
        _ => {
            // A few slots more at every hop.
            let more = dice.from(1, 3) as u32;
            for (flow, row) in draft.flows.iter().zip(&mut draft.rows) {
                for (hop, cell) in row.iter_mut().take(flow.hops as usize).enumerate() {
                    *cell += flow.rate * hop as u32 * more;
                }
            }
        }
    }
}

/// One number of the draft set to another at the edge of some limit.
pub fn spoil(dice: &mut Dice, draft: &mut Draft) {
    let edges = [
        0,
        1,
        511,
        512,
        513,
        9_999,
        10_000,
        10_001,
        99_999,
        100_000,
        100_001,
        100_000_000,
        100_000_001,
        u32::MAX,
    ];
    let edge = dice.of(&edges);
    if dice.one_in(8) && !draft.flows.is_empty() {
        let many = dice.from(30, 70) as usize;
        let flow = draft.flows[0];
        draft.flows.resize(many.max(draft.flows.len()), flow);
        return;
    }
    if dice.one_in(10) {
        let many = dice.from(31, 34) as usize;
        let port = draft.ports.first().copied().unwrap_or_default();
        draft.ports.resize(many.max(draft.ports.len()), port);
        return;
    }
    if dice.one_in(10) {
        draft.rows.resize(dice.from(0, 66) as usize, [0; 8]);
        return;
    }
    if dice.one_in(3) && !draft.ports.is_empty() {
        let p = dice.from(0, draft.ports.len() as u64 - 1) as usize;
        let port = &mut draft.ports[p];
        match dice.from(0, 5) {
            0 => port.rate = edge,
            1 => port.latency = edge,
            2 => port.stay = edge,
            3 => port.shortest = edge,
            4 => {
                port.stay = port
                    .latency
                    .saturating_add(port.shortest.div_ceil(port.rate.max(1)))
                    .saturating_add(dice.from(0, 1) as u32)
            }
            _ => port.shortest = port.shortest.saturating_add(1),
        }
    } else if !draft.flows.is_empty() {
        let f = dice.from(0, draft.flows.len() as u64 - 1) as usize;
        let flow = &mut draft.flows[f];
        match dice.from(0, 10) {
            0 => flow.rate = edge,
            1 => flow.burst = edge,
            2 => flow.shortest = edge,
            3 => flow.longest = edge,
            4 => flow.hops = dice.from(0, 10) as u8,
            5 => flow.mask = dice.next() as u8,
            6 => flow.path[dice.from(0, 7) as usize] = dice.from(0, 40) as u8,
            7 => flow.path[dice.from(0, 7) as usize] = flow.path[0],
            8 => flow.burst = flow.longest.saturating_sub(1),
            9 => flow.mask |= 1 << dice.from(0, 7),
            _ => {
                for flow in draft.flows.iter_mut() {
                    flow.mask = (((1u32 << flow.hops.min(8)) - 1) & 0xfe) as u8;
                }
            }
        }
    }
}

/// Bytes changed, cut off, doubled or added.
pub fn damage(dice: &mut Dice, file: &mut Vec<u8>) {
    let last = file.len() as u64 - 1;
    let at = dice.from(0, last) as usize;
    match dice.from(0, 8) {
        0 => file.truncate(at),
        1 => file.truncate((last as usize + 1).saturating_sub(dice.from(1, 40) as usize)),
        2 => file.extend((0..dice.from(1, 40)).map(|_| 0)),
        3 => file[at] = dice.next() as u8,
        4 => file[at] ^= 1 << dice.from(0, 7),
        5 => file[last as usize] = file[last as usize].wrapping_add(dice.from(1, 255) as u8),
        6 => {
            let record = file[..17.min(at)].to_vec();
            let end = file.len() - 5;
            file.splice(end..end, record);
        }
        7 => {
            file.remove(at);
        }
        _ => {
            // A kind byte of some record, or a row's flow.
            let mut starts = vec![0];
            while let Some(&kind) = file.get(*starts.last().unwrap()) {
                let size = match kind {
                    b'P' => 17,
                    b'F' => 27,
                    b'B' => 34,
                    _ => break,
                };
                starts.push(starts.last().unwrap() + size);
            }
            let start = starts[dice.from(0, starts.len() as u64 - 1) as usize].min(file.len() - 2);
            if dice.one_in(2) {
                file[start] = b"PFBEpX"[dice.from(0, 5) as usize];
            } else {
                file[start + 1] = file[start + 1].wrapping_add(1);
            }
        }
    }
}
