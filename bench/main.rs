//! Compares the proved judge with two judges in Rust, and measures it beside one of them. docs/SPEED.md says how to run it.

mod fast;
mod format;
mod plain;
mod traces;

use format::Answer;
use std::collections::BTreeMap;
use std::hint::black_box;
use std::time::Instant;
use traces::Random;

unsafe extern "C" {
    /// bench/kavlugtai.h says what this asks and answers.
    fn kavlugtai_judge(bytes: *const u8, length: usize, answer: *mut u64, entries: usize) -> bool;
}

/// The proved judge.
fn proved(bytes: &[u8]) -> Answer {
    let mut answer = [u64::MAX; 4];
    // The slices are live for the call, and do not overlap.
    let told = unsafe { kavlugtai_judge(bytes.as_ptr(), bytes.len(), answer.as_mut_ptr(), answer.len()) };
    assert!(told);
    match answer {
        [0, records, 0, 0] => Answer::Compliant { records },
        [1, thread, index, reason] => Answer::Unlawful { thread, index, reason },
        [2, cause, place, depth] => Answer::Damaged { cause, place, depth },
        [3, number, 0, 0] => Answer::Refused { number },
        _ => panic!("{answer:?} is no answer"),
    }
}

const JUDGES: [(&str, fn(&[u8]) -> Answer); 4] = [
    ("proved", proved),
    ("arrays", fast::judge_in_arrays),
    ("vectors", fast::judge_in_vectors),
    ("plain", plain::judge),
];

/// A short buffer is refused, and nothing outside the four entries is written.
fn compare_buffers() {
    let bytes = format::file(1, 1, &[]);
    for entries in 0..=6 {
        let mut answer = [7u64; 6];
        let told = unsafe { kavlugtai_judge(bytes.as_ptr(), bytes.len(), answer.as_mut_ptr(), entries) };
        assert_eq!(told, entries >= 4);
        assert_eq!(answer, if told { [0, 0, 0, 0, 7, 7] } else { [7; 6] });
    }
}

/// Compares the answers of all four judges on random files, and prints how many agreed by answer. Ends the program at the first that differs.
fn compare(files: u64, most: u64, seed: u64, agreed: &mut BTreeMap<(u8, u64), u64>) {
    for k in 0..files {
        let mut random = Random::new(seed + k);
        let bytes = traces::any_file(&mut random, most);
        let told = proved(&bytes);
        for (name, judge) in &JUDGES[1..] {
            let other = judge(&bytes);
            if other != told {
                println!("seed {}, at most {most} records: proved {told:?}, {name} {other:?}", seed + k);
                std::process::exit(1);
            }
        }
        let kind = match told {
            Answer::Compliant { .. } => (0, 0),
            Answer::Unlawful { reason, .. } => (1, reason),
            Answer::Damaged { cause, .. } => (2, cause),
            Answer::Refused { number } => (3, number),
        };
        *agreed.entry(kind).or_default() += 1;
    }
}

fn compare_all() {
    compare_buffers();
    let mut agreed = BTreeMap::new();
    compare(400_000, 40, 1_000_000, &mut agreed);
    compare(40_000, 700, 2_000_000, &mut agreed);
    compare(2_000, 4096, 3_000_000, &mut agreed);
    for (&(kind, number), count) in &agreed {
        let kind = ["compliant", "unlawful, reason", "damaged, cause", "refused"][kind as usize];
        println!("{count:7} agreed: {kind} {}", if number > 0 { number.to_string() } else { String::new() });
    }
    println!("{:7} agreed, none differed", agreed.values().sum::<u64>());
}

/// The least nanoseconds a record over several rounds, for each judge but the plain one.
fn time(files: &[Vec<u8>], records: usize) -> [f64; 3] {
    let repeats = (1 << 16) / (records * files.len()).max(1) + 1;
    let mut best = [f64::MAX; 3];
    for _ in 0..60 {
        for (best, (_, judge)) in best.iter_mut().zip(JUDGES) {
            let start = Instant::now();
            for _ in 0..repeats {
                for bytes in files {
                    black_box(judge(black_box(bytes)));
                }
            }
            let each = start.elapsed().as_nanos() as f64 / (repeats * files.len() * records) as f64;
            *best = best.min(each);
        }
    }
    best
}

fn time_all() {
    println!("nanoseconds a record, the best of 60 rounds; the ratios are proved / arrays and proved / vectors");
    println!("{:9} {:>8} {:>8} {:>8} {:>8} {:>7} {:>7}", "shape", "records", "proved", "arrays", "vectors", "ratio", "ratio");
    for shape in traces::SHAPES {
        for records in [64, 512, 4096] {
            let file = |seed| traces::shaped_file(&mut Random::new(seed), shape, records);
            let files: Vec<Vec<u8>> = (0..8).map(file).collect();
            for bytes in &files {
                assert_eq!(proved(bytes), Answer::Compliant { records: records as u64 });
            }
            let [ours, arrays, vectors] = time(&files, records);
            println!(
                "{shape:9} {records:8} {ours:8.2} {arrays:8.2} {vectors:8.2} {:7.2} {:7.2}",
                ours / arrays,
                ours / vectors
            );
        }
    }
}

/// Judges one file so many times with one of the judges, for a tool that counts instructions.
fn repeat(name: &str, shape: &str, records: usize, times: usize) {
    let bytes = traces::shaped_file(&mut Random::new(0), shape, records);
    let (_, judge) = JUDGES.into_iter().find(|(n, _)| *n == name).expect("a judge's name");
    for _ in 0..times {
        black_box(judge(black_box(&bytes)));
    }
}

fn main() {
    let words: Vec<String> = std::env::args().skip(1).collect();
    let words: Vec<&str> = words.iter().map(String::as_str).collect();
    match words[..] {
        ["compare"] => compare_all(),
        ["time"] => time_all(),
        ["repeat", judge, shape, records, times] => repeat(
            judge,
            shape,
            records.parse().expect("how many records"),
            times.parse().expect("how many times"),
        ),
        _ => {
            eprintln!("bench compare | bench time | bench repeat JUDGE SHAPE RECORDS TIMES");
            std::process::exit(2);
        }
    }
}
