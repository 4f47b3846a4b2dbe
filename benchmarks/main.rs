//! Compares the sheets of the proved library with those of a second calculation, and times both.
mod calculation;
mod kits;

use kits::{damage, full_ring, held_back, ring, spoil, whole, Dice};
use std::hint::black_box;

unsafe extern "C" {
    fn hovzirna_outcome(bytes: *const u8, count: usize) -> u64;
    fn hovzirna_sheet(bytes: *const u8, count: usize, place: *mut u8, room: usize) -> usize;
    fn clock_gettime(clock: i32, time: *mut [i64; 2]) -> i32;
}

/// The processor time of this process.
const PROCESS_TIME: i32 = 2;

fn proved_outcome(bytes: &[u8]) -> u64 {
    unsafe { hovzirna_outcome(bytes.as_ptr(), bytes.len()) }
}

fn proved_sheet(bytes: &[u8], place: &mut [u8]) -> usize {
    unsafe { hovzirna_sheet(bytes.as_ptr(), bytes.len(), place.as_mut_ptr(), place.len()) }
}

/// Processor time used so far, in nanoseconds.
fn now() -> f64 {
    let mut time = [0; 2];
    unsafe { clock_gettime(PROCESS_TIME, &mut time) };
    time[0] as f64 * 1e9 + time[1] as f64
}

/// The files of the comparison.
fn files(count: usize) -> Vec<Vec<u8>> {
    let mut dice = Dice(20_240_607);
    let mut files = Vec::with_capacity(count);
    for i in 0..count {
        let (ports, flows) = match i % 8 {
            0 => (32, 64),
            1 => (32, 20),
            2 | 3 => (8, 12),
            _ => (5, 6),
        };
        let mut draft = match i % 20 {
            6 => full_ring(&mut dice),
            13 => held_back(&mut dice),
            _ => whole(&mut dice, ports, flows),
        };
        if i % 3 == 1 {
            spoil(&mut dice, &mut draft);
        }
        let mut file = draft.file();
        if i % 6 == 2 {
            damage(&mut dice, &mut file);
        }
        files.push(file);
    }
    files.push(Vec::new());
    files
}

/// Counts the files on which the two differ, in the sheet, the place after it or the outcome.
fn compare(files: &[Vec<u8>]) -> usize {
    let mut outcomes = [0usize; 257];
    let mut different = 0;
    for (i, file) in files.iter().enumerate() {
        let mut ours = [0xaa; 5000];
        let mut theirs = [0xaa; 5000];
        let room = if i % 100 == 7 { 4095 } else { 4096 + i % 900 };
        let a = proved_sheet(file, &mut ours[..room]);
        let b = calculation::sheet(file, &mut theirs[..room]);
        let outcome = calculation::outcome(file);
        outcomes[outcome.min(256) as usize] += 1;
        if a != b || ours != theirs || proved_outcome(file) != outcome {
            different += 1;
            if different <= 10 {
                println!(
                    "file {i} differs: {}",
                    file.iter().map(|b| format!("{b:02x}")).collect::<String>()
                );
                println!("  proved: {}", String::from_utf8_lossy(&ours[..a]));
                println!("  second: {}", String::from_utf8_lossy(&theirs[..b]));
            }
        }
    }
    println!("{} files compared, {different} different", files.len());
    print!("quotes {}; refusals", outcomes[256]);
    for (number, count) in outcomes[..256].iter().enumerate().filter(|(_, count)| **count > 0) {
        print!(" {number}:{count}");
    }
    println!();
    different
}

fn median(mut times: Vec<f64>) -> f64 {
    times.sort_by(f64::total_cmp);
    times[times.len() / 2]
}

/// Nanoseconds of one turn, for each of the two: medians of runs that alternate, and the runs' spread.
fn side_by_side(turns: usize, mut proved: impl FnMut(), mut second: impl FnMut()) -> [f64; 3] {
    let mut times = [Vec::new(), Vec::new()];
    for run in 0..22 {
        for which in [run % 2, (run + 1) % 2] {
            let start = now();
            for _ in 0..turns {
                if which == 0 {
                    proved()
                } else {
                    second()
                }
            }
            times[which].push((now() - start) / turns as f64);
        }
    }
    let mut sorted = times[0].clone();
    sorted.sort_by(f64::total_cmp);
    let spread = (sorted[16] - sorted[5]) / sorted[11];
    let [a, b] = times;
    [median(a), median(b), spread]
}

fn report(name: &str, [proved, second, spread]: [f64; 3]) {
    println!(
        "| {name} | {:.2} | {:.2} | {:.2} | {:.0}% |",
        proved / 1e3,
        second / 1e3,
        proved / second,
        spread * 100.0
    );
}

/// Lets no answer be left out.
fn keep(answer: usize) {
    black_box(answer);
}

fn time_outcomes(name: &str, turns: usize, files: &[Vec<u8>]) {
    let times = side_by_side(
        turns,
        || {
            files
                .iter()
                .for_each(|file| keep(proved_outcome(black_box(file)) as usize))
        },
        || {
            files
                .iter()
                .for_each(|file| keep(calculation::outcome(black_box(file)) as usize))
        },
    );
    report(name, times);
}

fn time_sheets(name: &str, turns: usize, files: &[Vec<u8>]) {
    let (mut a, mut b) = ([0; 4096], [0; 4096]);
    let times = side_by_side(
        turns,
        || {
            files
                .iter()
                .for_each(|file| keep(proved_sheet(black_box(file), &mut a)))
        },
        || {
            files
                .iter()
                .for_each(|file| keep(calculation::sheet(black_box(file), &mut b)))
        },
    );
    report(name, times);
}

/// The kit of 32 ports, 64 flows and 8 hops whose ports have the least rate that gives a quote.
fn large() -> kits::Draft {
    (16..10_000)
        .map(|rate| ring(32, 64, 8, rate, 1))
        .find(|draft| calculation::outcome(&draft.file()) > 256)
        .unwrap()
}

fn main() {
    let count = std::env::args().nth(1).map_or(20_000, |count| count.parse().unwrap());
    let files = files(count);
    let different = compare(&files);

    let slow = ring(3, 3, 3, 3, 1).file();
    assert_eq!(calculation::outcome(&slow), 25);
    let slow_large = ring(32, 64, 8, 56, 1).file();
    assert_eq!(calculation::outcome(&slow_large), 25);
    let large = large();
    let large_file = large.file();
    let rounds = calculation::outcome(&large_file) - 256;
    let mut proposed = large.clone();
    proposed.rows = calculation::least_cells(&large_file).unwrap().to_vec();
    let mut overloaded = proposed.clone();
    overloaded.ports[31].rate = 1;
    let overloaded = overloaded.file();
    assert_eq!(calculation::outcome(&overloaded), 16);
    let proposed = proposed.file();
    assert_eq!(calculation::outcome(&proposed), 256);
    let mut miscounted = proposed.clone();
    *miscounted.last_mut().unwrap() += 1;
    assert_eq!(calculation::outcome(&miscounted), 4);
    let quick = |low: u64, high: u64| {
        files
            .iter()
            .filter(|file| file.len() < 300 && (low..=high).contains(&calculation::outcome(file)))
            .take(1000)
            .cloned()
            .collect::<Vec<_>>()
    };
    let small = quick(257, 356);
    let small_proposed = quick(256, 256);
    let damaged: Vec<_> = files
        .iter()
        .filter(|file| calculation::outcome(file) < 20)
        .take(1000)
        .cloned()
        .collect();

    println!("the large kit takes {rounds} rounds at R {}", large.ports[0].rate);
    println!("| what, once | proved, µs | second, µs | ratio | spread |");
    println!("|---|---|---|---|---|");
    time_outcomes("100,000 rounds on the 3-port ring, refused 25", 3, &[slow]);
    time_outcomes(
        "100,000 rounds on 32 ports, 64 flows, 8 hops, refused 25",
        1,
        &[slow_large],
    );
    time_outcomes("least table: 32 ports, 64 flows, 8 hops", 500, &[large_file.clone()]);
    time_outcomes(
        "that kit with its least rows proposed: reading alone, refused 4 at its end",
        2000,
        &[miscounted],
    );
    time_outcomes(
        "the same: reading and plan check, refused 16 at port 31",
        2000,
        &[overloaded],
    );
    time_outcomes(
        "the same: reading, plan check and check of the rows",
        2000,
        &[proposed.clone()],
    );
    time_sheets("the same: the whole sheet", 1000, &[proposed]);
    time_outcomes(&format!("least tables of {} small kits", small.len()), 5, &small);
    time_outcomes(
        &format!("checks of {} small kits' proposed rows", small_proposed.len()),
        10,
        &small_proposed,
    );
    time_outcomes(&format!("refusals of {} files and plans", damaged.len()), 10, &damaged);
    time_sheets(&format!("sheets of {} small kits", small.len()), 5, &small);
    std::process::exit(i32::from(different > 0));
}
