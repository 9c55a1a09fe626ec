// Runs programs on one capture, in turn, and tells how long each took and how much memory it
// held at its peak. For bench/sheet; Linux on a 64-bit machine.
//
// Usage: timing RUNS CAPTURE OUTPUT PROGRAM...
//        one line for each program: median ms, least ms, peak KiB
// Build: rustc --edition 2021 -O bench/timing.rs
//
// The peak is wait4's ru_maxrss. Linux counts into it what the child held before it became the
// program, so a peak is never told below about 1,100 KiB.

use std::fs::File;
use std::io;
use std::os::unix::process::CommandExt;
use std::process::{Command, ExitCode, Stdio};
use std::time::Instant;

/// struct rusage of 64-bit Linux: two times of two words each, then ru_maxrss and 13 more words.
type Usage = [i64; 18];
const MAXRSS: usize = 4;

extern "C" {
    fn wait4(pid: i32, status: *mut i32, options: i32, usage: *mut Usage) -> i32;
}

struct Run {
    milliseconds: f64,
    peak: i64,
}

fn wait(pid: i32) -> io::Result<(i32, i64)> {
    let mut status = 0;
    let mut usage: Usage = [0; 18];
    // SAFETY: both pointers are to live places of the layout that wait4 fills.
    if unsafe { wait4(pid, &mut status, 0, &mut usage) } != pid {
        return Err(io::Error::last_os_error());
    }
    Ok((status, usage[MAXRSS]))
}

fn run(program: &str, capture: &str, output: &str) -> io::Result<Run> {
    let input = File::open(capture)?;
    let output = File::create(output)?;
    let mut command = Command::new(program);
    command.stdin(Stdio::from(input)).stdout(Stdio::from(output));
    // With something to do before exec the child is a fork; else it would share this program's
    // memory until then, and all of that would count into its peak.
    // SAFETY: the closure does nothing.
    unsafe { command.pre_exec(|| Ok(())) };
    let start = Instant::now();
    let child = command.spawn()?;
    let (status, peak) = wait(child.id() as i32)?;
    let milliseconds = start.elapsed().as_secs_f64() * 1_000.0;
    if status != 0 {
        return Err(io::Error::other(format!("{program} ended with wait status {status}")));
    }
    Ok(Run { milliseconds, peak })
}

/// The first run of each program warms the caches and is not told.
fn run_all(runs: usize, capture: &str, output: &str, programs: &[String]) -> io::Result<()> {
    let mut times = vec![Vec::new(); programs.len()];
    let mut peaks = vec![0; programs.len()];
    for turn in 0..=runs {
        for (i, program) in programs.iter().enumerate() {
            let Run { milliseconds, peak } = run(program, capture, output)?;
            if turn > 0 {
                times[i].push(milliseconds);
            }
            peaks[i] = peak.max(peaks[i]);
        }
    }
    for (times, peak) in times.iter_mut().zip(peaks) {
        times.sort_by(f64::total_cmp);
        println!("{:.2} {:.2} {peak}", times[times.len() / 2], times[0]);
    }
    Ok(())
}

fn main() -> ExitCode {
    let arguments: Vec<String> = std::env::args().skip(1).collect();
    let done = match &arguments[..] {
        [runs, capture, output, programs @ ..] if !programs.is_empty() => runs
            .parse()
            .ok()
            .filter(|runs| *runs > 0)
            .ok_or_else(|| io::Error::other("RUNS is a number of 1 or more"))
            .and_then(|runs| run_all(runs, capture, output, programs)),
        _ => Err(io::Error::other("usage: timing RUNS CAPTURE OUTPUT PROGRAM...")),
    };
    match done {
        Ok(()) => ExitCode::SUCCESS,
        Err(error) => {
            eprintln!("timing: {error}");
            ExitCode::FAILURE
        }
    }
}
