//! The second calculation: plan file to quote sheet, written from the rules in docs/.

/// A refusal: its number and its place.
pub type Refused = (u64, u64);

/// A cell may not pass this.
const HIGHEST: u64 = 1_000_000_000;
/// The rounds allowed.
const ROUNDS: u64 = 100_000;

#[derive(Clone, Copy, Default)]
pub struct Port {
    pub rate: u32,
    pub latency: u32,
    pub stay: u32,
    pub shortest: u32,
}

#[derive(Clone, Copy, Default)]
pub struct Flow {
    pub rate: u32,
    pub burst: u32,
    pub shortest: u32,
    pub longest: u32,
    pub hops: u8,
    pub mask: u8,
    pub path: [u8; 8],
}

/// What a plan file says.
pub struct Kit {
    ports: [Port; 32],
    flows: [Flow; 64],
    cells: [[u32; 8]; 64],
    port_count: usize,
    flow_count: usize,
    row_count: usize,
}

/// The figures of an accepted table.
pub struct Figures {
    pub kit: Kit,
    pub rounds: u64,
    delays: [u64; 32],
}

fn number(bytes: &[u8], at: usize) -> u32 {
    u32::from_be_bytes([bytes[at], bytes[at + 1], bytes[at + 2], bytes[at + 3]])
}

impl Port {
    fn read(body: &[u8]) -> Port {
        Port {
            rate: number(body, 0),
            latency: number(body, 4),
            stay: number(body, 8),
            shortest: number(body, 12),
        }
    }

    fn within(&self) -> bool {
        (1..=10_000).contains(&self.rate) && self.latency <= 100_000 && (512..=100_000).contains(&self.shortest)
    }

    fn stay_within(&self) -> bool {
        self.stay <= self.latency + self.shortest.div_ceil(self.rate)
    }
}

impl Flow {
    fn read(body: &[u8]) -> Flow {
        let mut path = [0; 8];
        path.copy_from_slice(&body[18..26]);
        Flow {
            rate: number(body, 0),
            burst: number(body, 4),
            shortest: number(body, 8),
            longest: number(body, 12),
            hops: body[16],
            mask: body[17],
            path,
        }
    }

    fn within(&self) -> bool {
        (1..=10_000).contains(&self.rate)
            && 512 <= self.shortest
            && self.shortest <= self.longest
            && self.longest <= 100_000
            && self.longest <= self.burst
            && self.burst <= 100_000_000
    }

    /// The ports on the path.
    fn crossed(&self) -> &[u8] {
        &self.path[..self.hops as usize]
    }

    fn path_within(&self, port_count: usize) -> bool {
        if self.hops < 1 || self.hops > 8 {
            return false;
        }
        let (used, unused) = self.path.split_at(self.hops as usize);
        let mut seen = 0u32;
        for &port in used {
            if port as usize >= port_count || seen >> port & 1 == 1 {
                return false;
            }
            seen |= 1 << port;
        }
        unused.iter().all(|&port| port == 255)
    }

    fn regulated(&self, hop: usize) -> bool {
        self.mask >> hop & 1 == 1
    }

    fn mask_within(&self) -> bool {
        self.mask & 1 == 0 && u32::from(self.mask) >> self.hops == 0
    }
}

impl Kit {
    /// What the file says, or the file's first refusal.
    pub fn read(bytes: &[u8]) -> Result<Kit, Refused> {
        let mut kit = Kit {
            ports: [Port::default(); 32],
            flows: [Flow::default(); 64],
            cells: [[0; 8]; 64],
            port_count: 0,
            flow_count: 0,
            row_count: 0,
        };
        let mut at = 0;
        let mut records = 0u32;
        loop {
            let place = at as u64;
            let Some(&kind) = bytes.get(at) else {
                return Err((1, place));
            };
            let size = match kind {
                b'P' => 17,
                b'F' => 27,
                b'B' => 34,
                b'E' => 5,
                _ => return Err((2, place)),
            };
            let Some(body) = bytes.get(at + 1..at + size) else {
                return Err((1, place));
            };
            at += size;
            match kind {
                b'P' => {
                    if kit.flow_count + kit.row_count > 0 {
                        return Err((3, place));
                    }
                    if kit.port_count == 32 {
                        return Err((6, place));
                    }
                    kit.ports[kit.port_count] = Port::read(body);
                    kit.port_count += 1;
                }
                b'F' => {
                    if kit.row_count > 0 {
                        return Err((3, place));
                    }
                    if kit.flow_count == 64 {
                        return Err((6, place));
                    }
                    kit.flows[kit.flow_count] = Flow::read(body);
                    kit.flow_count += 1;
                }
                b'B' => {
                    if usize::from(body[0]) != kit.row_count {
                        return Err((3, place));
                    }
                    if kit.row_count == 64 {
                        return Err((6, place));
                    }
                    for (hop, cell) in kit.cells[kit.row_count].iter_mut().enumerate() {
                        *cell = number(body, 1 + 4 * hop);
                    }
                    kit.row_count += 1;
                }
                _ => {
                    if number(body, 0) != records {
                        return Err((4, place));
                    }
                    if at < bytes.len() {
                        return Err((5, at as u64));
                    }
                    return Ok(kit);
                }
            }
            records += 1;
        }
    }

    fn ports(&self) -> &[Port] {
        &self.ports[..self.port_count]
    }

    fn flows(&self) -> &[Flow] {
        &self.flows[..self.flow_count]
    }

    /// The sum of the flows' rates at each port.
    fn rates(&self) -> [u64; 32] {
        let mut sums = [0; 32];
        for flow in self.flows() {
            for &port in flow.crossed() {
                sums[port as usize] += u64::from(flow.rate);
            }
        }
        sums
    }

    /// The first limit of a plan that is not kept.
    pub fn check_plan(&self) -> Result<(), Refused> {
        for (p, port) in self.ports().iter().enumerate() {
            if !port.within() {
                return Err((10, p as u64));
            }
            if !port.stay_within() {
                return Err((11, p as u64));
            }
        }
        let mut regulators = 0;
        for (f, flow) in self.flows().iter().enumerate() {
            if !flow.within() {
                return Err((12, f as u64));
            }
            if !flow.path_within(self.port_count) {
                return Err((13, f as u64));
            }
            if flow
                .crossed()
                .iter()
                .any(|&p| flow.shortest < self.ports[p as usize].shortest)
            {
                return Err((14, f as u64));
            }
            regulators += flow.mask.count_ones();
            if !flow.mask_within() || regulators > 32 {
                return Err((15, f as u64));
            }
        }
        let rates = self.rates();
        for (p, port) in self.ports().iter().enumerate() {
            if rates[p] > u64::from(port.rate) {
                return Err((16, p as u64));
            }
        }
        Ok(())
    }

    /// The sum of the cells at each port.
    fn bursts(&self) -> [u64; 32] {
        let mut sums = [0; 32];
        for (flow, row) in self.flows().iter().zip(&self.cells) {
            for (&port, &cell) in flow.crossed().iter().zip(row) {
                sums[port as usize] += u64::from(cell);
            }
        }
        sums
    }

    /// The quoted delay of each port by the table as it is.
    fn delays(&self) -> [u64; 32] {
        let mut figures = self.bursts();
        for (figure, port) in figures.iter_mut().zip(self.ports()) {
            *figure = u64::from(port.latency) + figure.div_ceil(u64::from(port.rate));
        }
        figures
    }

    /// D - m of each port, 0 where m is greater.
    fn spreads(&self, delays: &[u64; 32]) -> [u64; 32] {
        let mut spreads = *delays;
        for (spread, port) in spreads.iter_mut().zip(self.ports()) {
            *spread = spread.saturating_sub(u64::from(port.stay));
        }
        spreads
    }

    /// Makes each cell its need; tells whether any changed.
    fn round(&mut self) -> Result<bool, Refused> {
        let spreads = self.spreads(&self.delays());
        let mut changed = false;
        let flows = &self.flows[..self.flow_count];
        for (f, (flow, row)) in flows.iter().zip(&mut self.cells).enumerate() {
            let mut need = u64::from(flow.burst);
            for hop in 0..flow.hops as usize {
                if hop > 0 {
                    if flow.regulated(hop) {
                        need = u64::from(flow.burst);
                    } else {
                        need += u64::from(flow.rate) * spreads[flow.path[hop - 1] as usize];
                    }
                }
                if need > HIGHEST {
                    return Err((24, (f * 8 + hop) as u64));
                }
                changed |= u64::from(row[hop]) != need;
                row[hop] = need as u32;
            }
        }
        Ok(changed)
    }

    /// Leaves the least table in the cells; tells the rounds that it took.
    fn find_least(&mut self) -> Result<u64, Refused> {
        let flows = &self.flows[..self.flow_count];
        for (flow, row) in flows.iter().zip(&mut self.cells) {
            row[..flow.hops as usize].fill(flow.burst);
        }
        for round in 1..=ROUNDS {
            if !self.round()? {
                return Ok(round);
            }
        }
        Err((25, 0))
    }

    /// Each cell of the proposed rows keeps the limit and reaches its need.
    fn check_rows(&self) -> Result<(), Refused> {
        if self.row_count != self.flow_count {
            return Err((20, self.row_count as u64));
        }
        for (f, (flow, row)) in self.flows().iter().zip(&self.cells).enumerate() {
            for (hop, &cell) in row.iter().enumerate() {
                let most = if hop < flow.hops as usize { HIGHEST } else { 0 };
                if u64::from(cell) > most {
                    return Err((22, (f * 8 + hop) as u64));
                }
            }
        }
        let spreads = self.spreads(&self.delays());
        for (f, (flow, row)) in self.flows().iter().zip(&self.cells).enumerate() {
            for hop in 0..flow.hops as usize {
                let need = if hop == 0 || flow.regulated(hop) {
                    u64::from(flow.burst)
                } else {
                    u64::from(row[hop - 1]) + u64::from(flow.rate) * spreads[flow.path[hop - 1] as usize]
                };
                if u64::from(row[hop]) < need {
                    return Err((21, (f * 8 + hop) as u64));
                }
            }
        }
        Ok(())
    }

    /// No port holds more than 32 frames, and no regulator more than 16.
    fn check_crowds(&self, delays: &[u64; 32]) -> Result<(), Refused> {
        let bursts = self.bursts();
        let rates = self.rates();
        for (p, port) in self.ports().iter().enumerate() {
            if (bursts[p] + rates[p] * delays[p]) / u64::from(port.shortest) > 32 {
                return Err((23, p as u64));
            }
        }
        for (f, flow) in self.flows().iter().enumerate() {
            if flow.mask == 0 {
                continue;
            }
            let mut stretch = 0;
            for hop in 1..flow.hops as usize {
                stretch += delays[flow.path[hop - 1] as usize] + 1;
                if flow.regulated(hop) {
                    let held = u64::from(flow.burst) + u64::from(flow.rate) * stretch;
                    if held / u64::from(flow.shortest) > 16 {
                        return Err((23, (32 + f * 8 + hop) as u64));
                    }
                    stretch = 0;
                }
            }
        }
        Ok(())
    }

    /// The figures of this kit, or its first refusal after the file's.
    pub fn figures(mut self) -> Result<Figures, Refused> {
        self.check_plan()?;
        let rounds = if self.row_count == 0 {
            self.find_least()?
        } else {
            self.check_rows()?;
            0
        };
        let delays = self.delays();
        self.check_crowds(&delays)?;
        Ok(Figures {
            kit: self,
            rounds,
            delays,
        })
    }
}

/// The figures of a plan file, or its first refusal.
pub fn quote(bytes: &[u8]) -> Result<Figures, Refused> {
    Kit::read(bytes)?.figures()
}

/// The number of the first refusal, or 256 and the rounds.
#[inline(never)]
pub fn outcome(bytes: &[u8]) -> u64 {
    match quote(bytes) {
        Ok(figures) => 256 + figures.rounds,
        Err((number, _)) => number,
    }
}

/// Writes a word and numbers as a line into the place; tells where it ends.
fn line(place: &mut [u8], mut at: usize, word: &[u8], numbers: &[u64]) -> usize {
    place[at..at + word.len()].copy_from_slice(word);
    at += word.len();
    for &number in numbers {
        place[at] = b' ';
        let mut digits = [0; 20];
        let mut from = 20;
        let mut rest = number;
        loop {
            from -= 1;
            digits[from] = b'0' + (rest % 10) as u8;
            rest /= 10;
            if rest == 0 {
                break;
            }
        }
        let count = 20 - from;
        place[at + 1..at + 1 + count].copy_from_slice(&digits[from..]);
        at += 1 + count;
    }
    place[at] = b'\n';
    at + 1
}

/// The sheet of a plan file at the front of the place; tells how many bytes it has.
#[inline(never)]
pub fn sheet(bytes: &[u8], place: &mut [u8]) -> usize {
    if place.len() < 4096 {
        return 0;
    }
    match quote(bytes) {
        Ok(figures) => {
            let kit = &figures.kit;
            let mut at = line(
                place,
                0,
                b"KIT",
                &[kit.port_count as u64, kit.flow_count as u64, figures.rounds],
            );
            let bursts = kit.bursts();
            let rates = kit.rates();
            for p in 0..kit.port_count {
                let delay = figures.delays[p];
                at = line(place, at, b"PORT", &[p as u64, delay, bursts[p] + rates[p] * delay]);
            }
            for (f, flow) in kit.flows().iter().enumerate() {
                let along: u64 = flow.crossed().iter().map(|&p| figures.delays[p as usize]).sum();
                at = line(place, at, b"FLOW", &[f as u64, along + u64::from(flow.hops) - 1]);
            }
            at
        }
        Err((number, at)) => line(place, 0, b"NO", &[number / 10, number, at]),
    }
}

/// The least table's cells of a plan file without rows, where there is one.
pub fn least_cells(bytes: &[u8]) -> Option<[[u32; 8]; 64]> {
    quote(bytes).ok().map(|figures| figures.kit.cells)
}
