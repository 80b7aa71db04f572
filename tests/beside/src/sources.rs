//! Where replies come from: the Rust, the reading of 01, or a Rattle program. Each takes the
//! same bytes and gives text.

use crate::interval_set;
use crate::paper::Instants;
use crate::paper_side::PaperSide;
use crate::records::Known;
use crate::reference::Reference;
use crate::side::{replies, Side};
use std::io::Read;
use std::path::{Path, PathBuf};
use std::process::{Child, Command, Stdio};
use std::sync::atomic::Ordering;
use std::time::{Duration, Instant};

#[derive(Clone, Debug)]
pub enum Source {
    /// The Rust, with what the stand-in for `IntervalSet` keeps, and whether a diary without
    /// windows and blocks has a calendar all the same. 01 says that neither changes a reply.
    Reference { keep: u8, empty_calendars: bool },
    /// The reading of 01.
    Paper(Instants),
    /// A program that reads one stream on standard input.
    Program(PathBuf),
}

pub const REFERENCE: Source = Source::Reference { keep: 0, empty_calendars: false };

impl Source {
    pub fn name(&self) -> String {
        match self {
            Source::Reference { keep: 0, empty_calendars: false } => "reference".to_string(),
            Source::Reference { keep: 0, .. } => "reference (empty calendars kept)".to_string(),
            Source::Reference { keep, .. } => format!("reference (pieces kept: {keep})"),
            Source::Paper(Instants::Every) => "paper (every instant)".to_string(),
            Source::Paper(Instants::Events) => "paper (events)".to_string(),
            Source::Program(path) => path.file_name().unwrap_or_default().to_string_lossy().into(),
        }
    }

    pub fn is_reference(&self) -> bool {
        matches!(self, Source::Reference { .. })
    }

    fn side(&self) -> Option<Box<dyn Side>> {
        match self {
            Source::Reference { empty_calendars, .. } => {
                Some(Box::new(Reference::new(*empty_calendars)))
            }
            Source::Paper(how) => Some(Box::new(PaperSide::new(*how))),
            Source::Program(_) => None,
        }
    }

    /// The reply to each record, and the totals of the diaries at the end. A program gives one
    /// text for all, and no totals.
    pub fn replies(&self, bytes: &[u8], known: Known) -> (Vec<String>, Vec<(u64, u64)>) {
        if let Source::Program(path) = self {
            return (vec![run_program(path, bytes)], Vec::new());
        }
        if let Source::Reference { keep, .. } = self {
            interval_set::KEEP.store(*keep, Ordering::Relaxed);
        }
        let mut side = self.side().expect("not a program");
        let given = replies(side.as_mut(), bytes, known);
        interval_set::KEEP.store(0, Ordering::Relaxed);
        (given, side.totals())
    }

    pub fn text(&self, bytes: &[u8], known: Known) -> String {
        self.replies(bytes, known).0.concat()
    }
}

/// A file in the build folder for a stream that a program is to read.
pub fn scratch() -> PathBuf {
    let own = std::env::current_exe().expect("this program has a path");
    own.with_file_name(format!("{}.records", std::process::id()))
}

/// How long a program may take for one stream.
const PATIENCE: Duration = Duration::from_secs(60);

/// What a program prints for a stream; another end than status 0 is told in a last line.
fn run_program(path: &Path, bytes: &[u8]) -> String {
    let stream = scratch();
    std::fs::write(&stream, bytes).expect("the build folder takes a stream");
    let input = std::fs::File::open(&stream).expect("just written");
    let child = Command::new(path).stdin(input).stdout(Stdio::piped()).spawn();
    let text = child.map(printed).unwrap_or_else(|error| format!("not run: {error}\n"));
    let _ = std::fs::remove_file(&stream);
    text
}

/// What a started program prints until it ends; it is ended where it takes too long.
fn printed(mut child: Child) -> String {
    let mut out = child.stdout.take().expect("its output is piped");
    let reader = std::thread::spawn(move || {
        let mut bytes = Vec::new();
        let _ = out.read_to_end(&mut bytes);
        String::from_utf8_lossy(&bytes).into_owned()
    });
    let began = Instant::now();
    let end = loop {
        match child.try_wait() {
            Ok(Some(status)) if status.success() => break String::new(),
            Ok(Some(status)) => break format!("ended with {status}\n"),
            Ok(None) if began.elapsed() < PATIENCE => {
                std::thread::sleep(Duration::from_micros(200))
            }
            _ => {
                let _ = child.kill();
                let _ = child.wait();
                break "took too long\n".to_string();
            }
        }
    };
    reader.join().expect("the reader gives what it read") + &end
}
