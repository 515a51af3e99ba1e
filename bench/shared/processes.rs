// Programs that are run to be measured.
use std::fs::File;
use std::path::Path;
use std::process::{Command, Stdio};
use std::time::Instant;

/// What a process took: its processor time, its time by the clock, and the most memory that it held.
#[derive(Clone, Copy)]
pub struct Cost {
    pub seconds: f64,
    pub clock: f64,
    pub megabytes: f64,
}

#[repr(C)]
#[derive(Default)]
struct Usage {
    user: [i64; 2],
    system: [i64; 2],
    most_kilobytes: i64,
    rest: [i64; 13],
}

unsafe extern "C" {
    fn wait4(process: i32, status: *mut i32, options: i32, usage: *mut Usage) -> i32;
}

/// Runs a program with these words in a folder, and puts what it prints into a file there. It must end well.
pub fn run(program: &str, words: &[&str], folder: &Path, to: &str) -> Cost {
    let to = File::create(folder.join(to)).expect("a file");
    let mut command = Command::new(program);
    command.args(words).current_dir(folder).stdin(Stdio::null()).stdout(to);
    let start = Instant::now();
    let process = command.spawn().expect("a program").id() as i32;
    let (mut status, mut usage) = (0, Usage::default());
    let waited = unsafe { wait4(process, &mut status, 0, &mut usage) };
    let clock = start.elapsed().as_secs_f64();
    assert_eq!((waited, status), (process, 0), "{program} failed");
    let seconds = |[seconds, microseconds]: [i64; 2]| seconds as f64 + microseconds as f64 / 1e6;
    Cost {
        seconds: seconds(usage.user) + seconds(usage.system),
        clock,
        megabytes: usage.most_kilobytes as f64 / 1024.0,
    }
}

/// The least times and the least memory of several runs.
pub fn least(costs: &[Cost]) -> Cost {
    let of = |part: fn(&Cost) -> f64| costs.iter().map(part).fold(f64::MAX, f64::min);
    Cost {
        seconds: of(|cost| cost.seconds),
        clock: of(|cost| cost.clock),
        megabytes: of(|cost| cost.megabytes),
    }
}
