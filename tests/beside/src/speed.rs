//! Times kind 38 (layouts of joint time and work ends) on the Rust and on run_calendar, both as
//! processes that read the same file, in turn, the least of several runs each. The time of the
//! same stream with no rounds is taken off, so that neither the start of the process nor the
//! reading counts.

use crate::records::{encode, Record};
use crate::sources::scratch;
use std::path::{Path, PathBuf};
use std::process::{Command, Stdio};
use std::time::Instant;

/// Runs of each, of which the least counts.
const RUNS: usize = 7;
/// One period of a calendar in seconds: a window with a block in it, and a gap. The rounds begin
/// a millisecond apart, so that all of them lie in the first period.
const PERIOD: u64 = 10_000;

/// Calendars, windows and blocks of each, rounds.
const INPUTS: [(u64, u64, u32); 3] = [(8, 32, 40_000), (5, 10, 200_000), (25, 32, 8_000)];

/// The calendars overlap much, and no two edges are the same: the windows of all share the
/// middle of each period, and the blocks there lie one behind the other. In each period the
/// joint time then has one piece more than there are calendars.
fn stream(calendars: u64, windows: u64, rounds: u32) -> Vec<u8> {
    let mut records = Vec::new();
    for c in 0..calendars {
        for k in 0..windows {
            let ms = |seconds: u64| (k * PERIOD + seconds) * 1000;
            records.push(Record::new(2, &[ms(1 + 71 * c), ms(9_000 + 31 * c)]));
            records.push(Record::new(3, &[ms(2_000 + 250 * c), ms(2_100 + 251 * c)]));
        }
        records.push(Record::new(34, &[]));
    }
    let step = windows * PERIOD * 1000 / 100;
    records.push(Record::new(38, &[u64::from(rounds), 0, step, 12_000_000]));
    encode(&records)
}

/// Seconds that one run takes, and what it printed.
pub fn timed(command: &mut Command, file: &Path) -> (f64, String) {
    let input = std::fs::File::open(file).expect("the stream just written");
    let began = Instant::now();
    let output =
        command.stdin(input).stderr(Stdio::inherit()).output().expect("a program that runs");
    (began.elapsed().as_secs_f64(), String::from_utf8_lossy(&output.stdout).into_owned())
}

/// The same, of a program over some bytes.
pub fn timed_on(program: &Path, bytes: &[u8]) -> (f64, String) {
    let file = scratch();
    std::fs::write(&file, bytes).expect("the build folder takes a stream");
    let both = timed(&mut Command::new(program), &file);
    let _ = std::fs::remove_file(&file);
    both
}

/// The programs timed: the Rust by this program itself, and run_calendar where it is there.
fn commands(programs: &Path) -> Vec<(String, PathBuf, Vec<&'static str>)> {
    let own = std::env::current_exe().expect("this program has a path");
    let mut commands = vec![("reference".to_string(), own, vec!["reply", "reference", "calendar"])];
    let program = programs.join("run_calendar");
    match program.exists() {
        true => commands.push(("run_calendar".to_string(), program, vec![])),
        false => println!("run_calendar: not there yet"),
    }
    commands
}

pub fn run(programs: &Path) -> bool {
    let commands = commands(programs);
    let mut good = true;
    for (calendars, windows, rounds) in INPUTS {
        let mut least = vec![[f64::MAX; 2]; commands.len()];
        let mut sums = vec![String::new(); commands.len()];
        for (part, rounds) in [0, rounds].into_iter().enumerate() {
            let file = scratch();
            let bytes = stream(calendars, windows, rounds);
            std::fs::write(&file, &bytes).expect("the build folder takes a stream");
            for _ in 0..RUNS {
                for (k, (_, path, args)) in commands.iter().enumerate() {
                    let (seconds, printed) = timed(Command::new(path).args(args), &file);
                    least[k][part] = least[k][part].min(seconds);
                    sums[k] = printed;
                }
            }
            let _ = std::fs::remove_file(&file);
            good &= sums.iter().all(|s| *s == sums[0]) && sums[0].starts_with("sum ");
        }
        println!(
            "{calendars} calendars of {windows} windows and {windows} blocks, {rounds} rounds, {}",
            sums[0].trim_end()
        );
        for (k, (name, _, _)) in commands.iter().enumerate() {
            let each = (least[k][1] - least[k][0]) / f64::from(rounds) * 1e6;
            let ratio = (least[k][1] - least[k][0]) / (least[0][1] - least[0][0]);
            println!(
                "  {name:<14} {:.3} s, {each:.2} us a round, {ratio:.2} times the Rust's",
                least[k][1] - least[k][0]
            );
            if sums[k] != sums[0] {
                println!("  {name} DIFFERS: {}", sums[k].trim_end());
            }
        }
    }
    good
}
