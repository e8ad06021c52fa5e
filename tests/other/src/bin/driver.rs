//! Maps graph files with one library file, through the static library or,
//! with `--other`, through the reference mapper, with `--pairs` with pairs of
//! cells too, and prints a line for each, or with `--netlist` the netlist.

use arraymap::{bytes_enough_pairs, call, call_pairs, words_needed, Answer};
use other::reference;
use std::io::Write;
use std::{env, fs, io, process::exit};

const USAGE: &str = "usage: driver [--other] [--pairs] [--netlist] [--time] [--calls N] CELLS GRAPH...";

/// CPU time of this process in seconds. The standard library has wall time
/// alone, which counts what other processes do.
fn cpu_seconds() -> f64 {
    #[repr(C)]
    struct Timespec {
        seconds: i64,
        nanoseconds: i64,
    }
    extern "C" {
        fn clock_gettime(clock: i32, time: *mut Timespec) -> i32;
    }
    const CLOCK_PROCESS_CPUTIME_ID: i32 = 2;
    let mut time = Timespec { seconds: 0, nanoseconds: 0 };
    // The pointer is to a timespec as 64-bit Linux lays it out.
    let status = unsafe { clock_gettime(CLOCK_PROCESS_CPUTIME_ID, &mut time) };
    assert_eq!(status, 0, "clock_gettime");
    time.seconds as f64 + time.nanoseconds as f64 * 1e-9
}

/// A of a graph's header; 0 if it has none, which the mapper then refuses.
fn ands(graph: &[u8]) -> u16 {
    let line = graph.split(|&byte| byte == b'\n').next().unwrap_or_default();
    let last = String::from_utf8_lossy(line).split(' ').nth(5).and_then(|field| field.parse().ok());
    last.unwrap_or_default()
}

fn read(path: &str) -> Vec<u8> {
    fs::read(path).unwrap_or_else(|error| {
        eprintln!("driver: {path}: {error}");
        exit(2)
    })
}

fn main() {
    let (mut through_other, mut pairs, mut netlist, mut timed, mut calls) = (false, false, false, false, 1);
    let mut files = Vec::new();
    let mut words = env::args().skip(1);
    while let Some(word) = words.next() {
        match word.as_str() {
            "--other" => through_other = true,
            "--pairs" => pairs = true,
            "--netlist" => netlist = true,
            "--time" => timed = true,
            "--calls" => calls = words.next().and_then(|n| n.parse().ok()).unwrap_or(0),
            _ => files.push(word),
        }
    }
    if calls == 0 || files.len() < 2 {
        eprintln!("{USAGE}");
        exit(2);
    }
    let cells = read(&files[0]);
    for file in &files[1..] {
        let graph = read(file);
        let mut work = vec![0; words_needed(&graph)];
        let mut text = vec![0; bytes_enough_pairs(&graph)];
        let mut figures = [0; 4];
        let mut length = 0;
        let mut least = f64::INFINITY;
        for _ in 0..calls {
            let start = cpu_seconds();
            figures = if through_other {
                let map = if pairs { reference::map_pairs } else { reference::map };
                let (answer, printed) = map(&cells, &graph, &[], work.len(), text.len());
                length = printed.len();
                text[..length].copy_from_slice(&printed);
                [answer.number, answer.gates, answer.area, answer.arrival]
            } else {
                let map = if pairs { call_pairs } else { call };
                let Answer { number, value, gates, area, arrival } = map(&cells, &graph, &[], &mut work, &mut text);
                length = if number == 0 { value as usize } else { 0 };
                [number as u32, gates, area, arrival]
            };
            least = least.min(cpu_seconds() - start);
        }
        if netlist {
            io::stdout().write_all(&text[..length]).expect("standard output");
            continue;
        }
        let ([number, gates, area, arrival], ands) = (figures, ands(&graph));
        print!("{file} ands {ands} words {} answer {number} gates {gates} area {area} arrival {arrival}", work.len());
        if timed {
            print!(" microseconds {:.1}", least * 1e6);
        }
        println!();
    }
}
