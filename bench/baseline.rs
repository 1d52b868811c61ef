//! An unverified program that does what `sbiboard replay FILE` and `sbiboard check FILE` do, to measure beside them.
//! `bench/replay.py` builds it, compares its output with the program's byte for byte, and times both; `bench/agree.py`
//! compares the two on all examples, on random schedules and on their traces, where they print the same bytes and end
//! with the same status.
//!
//! It is written for speed, as one careful programmer would write it: the bytes of a script are looked at once, a line
//! is eight bytes with its numbers in a list beside it, what a trace says of it eight more, an event of the history is 32 bytes with its numbers, and the
//! TLB entry that it used, in lists of the board's own, a cache is sixteen places, each hart has a ring of the fences
//! that wait there, sets of harts are words of 128 bits, lines are composed in one buffer of 64 KiB, and no
//! line or step takes memory. As in the program, the whole script is read before the first byte is written, every
//! fault is told with its line, and the history owns what it holds. Want of memory isn't told: it aborts.
//!
//! `run FILE` does what `sbiboard run FILE` does: a thread for each hart and one for the clock, round one std::sync::Mutex, with
//! a condvar, take views, choose and rest as the program's do. A run's end is read off what the threads have left to do, where
//! the program goes through the history. `bench/run.py` times both.
//!
//! `lock HARTS CALLS sip|ipi` does what `thread_rows locks` does with such words: so many of eight harts make so many calls each on
//! a board behind a lock. `bench/lock.py` times both.
//!
//! `orders FILE TIMES JOBS` does what `sbiboard test` does with the program of `bench/orders.py`: it tries so many orders on so
//! many threads, judges three conditions and counts the different records; each on a new board, and each step as likely.

#[path = "baseline/amo.rs"]
mod amo;
#[path = "baseline/board.rs"]
mod board;
#[path = "baseline/explore.rs"]
mod explore;
#[path = "baseline/faults.rs"]
mod faults;
#[path = "baseline/fences.rs"]
mod fences;
#[path = "baseline/lock.rs"]
mod lock;
#[path = "baseline/memory.rs"]
mod memory;
#[path = "baseline/orders.rs"]
mod orders;
#[path = "baseline/printing.rs"]
mod printing;
#[path = "baseline/script.rs"]
mod script;
#[path = "baseline/shared.rs"]
mod shared;
#[path = "baseline/threads.rs"]
mod threads;
#[path = "baseline/words.rs"]
mod words;

use board::{Board, Refusal, Reply};
use printing::Out;
use script::{Fault, Kind, Line, MOST_BYTES, SaidName, Script, parse};
use std::fs::File;
use std::io::{self, Read};
use std::os::fd::AsFd;
use std::process::exit;
use threads::End;

fn read(path: &str) -> io::Result<Vec<u8>> {
    let file = File::open(path)?;
    let size = file.metadata()?.len().min(MOST_BYTES as u64) as usize;
    let mut bytes = Vec::with_capacity(size + 2);
    file.take(MOST_BYTES as u64 + 1).read_to_end(&mut bytes)?;
    Ok(bytes)
}

/// The standard output, with a buffer.
fn output() -> io::Result<Out> {
    let file = File::from(io::stdout().as_fd().try_clone_to_owned()?);
    Ok(Out::new(file))
}

fn numbers_of<'a>(script: &'a Script, line: &Line) -> &'a [u64] {
    &script.numbers[line.first as usize..][..usize::from(line.count)]
}

/// Steps the board through a schedule and prints it. Answers whether a line met a full history.
fn replay(script: &Script, board: &mut Board) -> Ended {
    let mut out = output()?;
    let mut met_full = false;
    out.board_line(&script.config)?;
    for line in &script.lines {
        let numbers = numbers_of(script, line);
        let answer = board.step(*line, numbers);
        met_full |= answer.is_err_and(|refusal| refusal == Refusal::HistoryFull);
        out.line(*line, numbers, answer)?;
    }
    out.table(board)?;
    Ok(if met_full {
        (3, "history full")
    } else {
        (0, "")
    })
}

/// Steps the board through a trace and compares each answer with what the trace says.
fn check(script: &Script, board: &mut Board) -> Ended {
    let mut out = output()?;
    for (line, said) in script.lines.iter().zip(&script.said) {
        let answer = board.step(*line, numbers_of(script, line));
        let first = line.first as usize + usize::from(line.count);
        let numbers = &script.numbers[first..][..said.name.count()];
        if !agrees(said.name, numbers, line.actor, answer) {
            out.differing(said.line, line.actor, answer)?;
            out.flush()?;
            return Ok((5, ""));
        }
    }
    out.agreed(script.lines.len())?;
    out.flush()?;
    Ok((0, ""))
}

fn agrees(name: SaidName, numbers: &[u64], actor: u8, answer: Result<Reply, Refusal>) -> bool {
    match (name, answer) {
        (SaidName::Ret, Ok(Reply::Ret(error, value))) => {
            numbers[0] == i64::from(error) as u64 && numbers[1] == value
        }
        (SaidName::Entry, Ok(Reply::Entry { addr, opaque })) => {
            *numbers == [addr, u64::from(actor), opaque]
        }
        (SaidName::Value, Ok(Reply::Value(value))) => numbers[0] == value,
        (SaidName::Fault, Ok(Reply::Fault(cause))) => numbers[0] == u64::from(cause),
        (SaidName::Moved, Ok(Reply::Moved(state))) => numbers[0] == state as u64,
        (SaidName::Refused, Err(refusal)) => numbers[0] == refusal as u64,
        (SaidName::Waiting, Ok(Reply::Waiting))
        | (SaidName::Gone, Ok(Reply::Gone))
        | (SaidName::Served, Ok(Reply::Served))
        | (SaidName::Done, Ok(Reply::Done)) => true,
        _ => false,
    }
}

/// Runs a program on threads and prints its record.
fn run_on_threads(script: &Script) -> Ended {
    let Some((board, end)) = threads::run(script) else {
        return Ok((1, "bad board"));
    };
    let mut out = output()?;
    out.board_line(&script.config)?;
    for (line, numbers, reply) in board.history() {
        out.line(line, numbers, Ok(reply))?;
    }
    out.table(&board)?;
    let (name, ended) = match end {
        End::Off => ("off", (0, "")),
        End::HistoryFull => ("history-full", (3, "history full")),
        End::Quiet => ("quiet", (0, "")),
        End::Stuck => ("stuck", (4, "stuck")),
    };
    out.end(name.as_bytes())?;
    out.flush()?;
    std::hint::black_box(&board);
    Ok(ended)
}

type Ended = io::Result<(i32, &'static str)>;

/// Runs a task on the script of a file, which must be of this kind, or without lines.
fn run(path: &str, kind: Kind, task: impl Fn(&Script) -> Ended) -> (i32, String) {
    let failed = || (7, "input or output failed".to_string());
    let Ok(mut bytes) = read(path) else {
        return failed();
    };
    let script = match parse(&mut bytes) {
        Ok(script) => script,
        Err(Fault(line, fault)) => return (1, format!("line {line}: fault {fault}")),
    };
    if script.kind != kind && script.kind != Kind::Empty {
        return (1, "wrong kind of script".to_string());
    }
    task(&script).map_or_else(|_| failed(), |(status, text)| (status, text.to_string()))
}

/// The same, of a task that steps a board.
fn step_by(path: &str, kind: Kind, task: impl Fn(&Script, &mut Board) -> Ended) -> (i32, String) {
    run(path, kind, |script| {
        let Some(mut board) = Board::new(&script.config) else {
            return Ok((1, "bad board"));
        };
        let ended = task(script, &mut board);
        std::hint::black_box(&board);
        ended
    })
}

/// Has threads make calls on a board behind a lock, and prints how many events there were, and the nanoseconds.
fn make_calls(words: &[String]) -> (i32, String) {
    let usage = (2, "lock HARTS CALLS sip|ipi".to_string());
    let [harts, calls, op] = words else {
        return usage;
    };
    let (Ok(harts), Ok(calls), Some(op)) = (harts.parse(), calls.parse(), lock::op_of(op)) else {
        return usage;
    };
    let Some((events, took)) = lock::run(harts, calls, op) else {
        return (1, "bad board".to_string());
    };
    println!("{events} {took}");
    (0, String::new())
}

/// Tries orders of a program, and prints how many different records there were.
fn try_orders(path: &str, times: &str, jobs: &str) -> (i32, String) {
    let (Ok(times), Ok(jobs)) = (times.parse(), jobs.parse()) else {
        return (2, "orders FILE TIMES JOBS".to_string());
    };
    run(path, Kind::Program, |script| {
        let Some(records) = orders::run(script, times, jobs) else {
            return Ok((1, "a condition fails"));
        };
        println!("{times} orders, {records} different records");
        Ok((0, ""))
    })
}

/// Explores all orders of a program, of so many states at most, and prints how many there are, and how many states and steps.
fn explore_orders(path: &str, most: &str) -> (i32, String) {
    let Ok(most) = most.parse() else {
        return (2, "explore FILE STATES".to_string());
    };
    run(path, Kind::Program, |script| {
        let Some(start) = explore::Here::new(script) else {
            return Ok((1, "bad board"));
        };
        let Some(found) = explore::run(script, start, most) else {
            return Ok((8, "not all orders were seen"));
        };
        println!("# orders: {}", found.orders());
        println!("# states: {}, steps: {}", found.states(), found.steps());
        Ok((0, ""))
    })
}

fn main() {
    let words: Vec<String> = std::env::args().skip(1).collect();
    let (status, text) = match words.as_slice() {
        [word, path] if word == "replay" => step_by(path, Kind::Schedule, replay),
        [word, path] if word == "check" => step_by(path, Kind::Trace, check),
        [word, path] if word == "run" => run(path, Kind::Program, run_on_threads),
        [word, path, most] if word == "explore" => explore_orders(path, most),
        [word, path, times, jobs] if word == "orders" => try_orders(path, times, jobs),
        [word, rest @ ..] if word == "lock" => make_calls(rest),
        _ => (2, "replay FILE, check FILE, run FILE, explore, orders, or lock".to_string()),
    };
    if !text.is_empty() {
        eprintln!("sbiboard: {text}");
    }
    exit(status);
}
