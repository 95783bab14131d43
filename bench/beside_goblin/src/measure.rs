//! Measures two readers of the same files, in turn.
use std::error::Error;
use std::hint::black_box;
use std::{fs, io};

const TURNS: usize = 21;

// What the C library reports about a process: two times in seconds and microseconds, and counts.
#[repr(C)]
#[derive(Default)]
struct Usage {
    times: [[i64; 2]; 2],
    sizes: [i64; 4],
    page_faults: i64,
    others: [i64; 9],
}

unsafe extern "C" {
    fn getrusage(who: i32, usage: &mut Usage) -> i32;
}

// The processor time of this process in microseconds, and its page faults, so far.
fn used() -> (i64, i64) {
    let mut usage = Usage::default();
    // SAFETY: the record is that of Linux for 64 bits, and 0 is this process.
    unsafe { getrusage(0, &mut usage) };
    let time = usage.times.iter().map(|[s, us]| s * 1_000_000 + us).sum();
    (time, usage.page_faults)
}

// The time in milliseconds and the page faults of one read of all files: the mean of `rounds` reads.
fn measure<F, T>(files: &[F], rounds: usize, read: impl Fn(&F) -> Option<T>) -> (f64, f64) {
    let before = used();
    for _ in 0..rounds {
        for file in files {
            black_box(read(black_box(file)));
        }
    }
    let after = used();
    let each = |count: i64| count as f64 / rounds as f64;
    (each(after.0 - before.0) / 1000.0, each(after.1 - before.1))
}

fn median(turns: impl Iterator<Item = f64>) -> f64 {
    let mut turns: Vec<f64> = turns.collect();
    turns.sort_by(f64::total_cmp);
    turns[turns.len() / 2]
}

// A file with its path.
type Named = (String, Vec<u8>);

/// The arguments `ROUNDS FILE..`: how often to read, and the files.
pub fn asked() -> Result<(usize, Vec<Named>), Box<dyn Error>> {
    let words: Vec<String> = std::env::args().skip(1).collect();
    let [rounds, paths @ ..] = words.as_slice() else {
        return Err("usage: ROUNDS FILE..".into());
    };
    let files = paths.iter().map(|it| Ok((it.clone(), fs::read(it)?)));
    Ok((rounds.parse()?, files.collect::<io::Result<_>>()?))
}

/// The files in which two readers count the same. Prints the paths of the others.
pub fn alike<T: PartialEq>(
    files: Vec<Named>,
    ours: impl Fn(&[u8]) -> Option<T>,
    theirs: impl Fn(&[u8]) -> Option<T>,
) -> Vec<Vec<u8>> {
    let (alike, others): (Vec<_>, Vec<_>) = files
        .into_iter()
        .partition(|(_, file)| ours(file) == theirs(file));
    for (path, _) in others {
        println!("{path} is left out: the two readers count differently");
    }
    alike.into_iter().map(|(_, file)| file).collect()
}

/// Prints the processor time of each reader for one read of all files (the median of 21 turns, in
/// milliseconds), their ratio, and how many pages of memory each then touched for the first time.
pub fn compare<F, T>(
    files: &[F],
    rounds: usize,
    (our_name, ours): (&str, impl Fn(&F) -> Option<T>),
    (their_name, theirs): (&str, impl Fn(&F) -> Option<T>),
) {
    let turns: Vec<_> = (0..TURNS)
        .map(|_| {
            [
                measure(files, rounds, &ours),
                measure(files, rounds, &theirs),
            ]
        })
        .collect();
    let [our_time, their_time] = [0, 1].map(|it| median(turns.iter().map(|turn| turn[it].0)));
    let [our_faults, their_faults] = [0, 1].map(|it| median(turns.iter().map(|turn| turn[it].1)));
    println!(
        "{our_name} {our_time:.4} ms, {their_name} {their_time:.4} ms, ratio {:.2}, page faults {our_faults:.0} and {their_faults:.0}",
        our_time / their_time
    );
}
