//! What `dev/workers` measures: how elements relate, found one after the other and by workers, and a suite of equal traces.
//! The words are what to do, a file of one package with the module `mkT`, how often, and a trace.
#![tactic(auto)]

use anyhow::{Context, Result, bail};
use bsv_bits::Name;
use bsv_design::Design;
use bsv_flow::{Compiled, compile};
use bsv_io::{MemFiles, NoGate};
use bsv_schedule::Relations;
use bsv_suite::{Trace, reports};
use std::alloc::Global;
use std::fs;
use std::rt::Files;
use std::thread::Threads;

/// The design of a file, compiled.
fn compiled_of<R: Files + AllocGlobal + Threads + Sync>(rt: &R, file: &str) -> Result<Compiled> {
    let alloc = rt.alloc();
    let text = fs::read_to_string(rt, file)?;
    let mut files = Vec::new(alloc);
    let name = Name::new(alloc, b"T.bsv")?;
    files.push((name, Vec::from_slice(alloc, text.as_bytes())?))?;
    let mut files = MemFiles::new(alloc, files, Vec::new(alloc))?;
    match compile(rt, alloc, &mut files, "T.bsv", "mkT", &NoGate) {
        Ok(compiled) => Ok(compiled),
        Err(_) => bail!("the design is refused"),
    }
}

/// Eight traces of these bytes.
fn traces_of(alloc: Global, text: &str) -> Result<Vec<Trace>> {
    let mut traces = Vec::new(alloc);
    for _number in 0..8u32 {
        let name = Name::new(alloc, b"trace")?;
        let bytes = Vec::from_slice(alloc, text.as_bytes())?;
        traces.push(Trace { name, bytes })?;
    }
    Ok(traces)
}

fn find_rows(alloc: Global, design: &Design, turns: u32) -> Result<()> {
    for _turn in 0..turns {
        Relations::new(alloc, design)?;
    }
    Ok(())
}

fn find_rows_by_workers<R: Threads + Sync>(
    rt: &R,
    alloc: Global,
    design: &Design,
    turns: u32,
) -> Result<()> {
    for _turn in 0..turns {
        Relations::in_parallel(rt, alloc, design, &NoGate)?;
    }
    Ok(())
}

fn run_suites<R: Files + AllocGlobal + Threads + Sync>(
    rt: &R,
    compiled: &Compiled,
    turns: u32,
    trace: &str,
) -> Result<()> {
    let text = fs::read_to_string(rt, trace)?;
    for _turn in 0..turns {
        let traces = traces_of(rt.alloc(), text.as_str())?;
        let (design, schedule) = (&compiled.design, &compiled.schedule);
        reports(rt, rt.alloc(), design, schedule, &compiled.net, traces, &NoGate)?;
    }
    Ok(())
}

fn main(rt: HostRuntime) -> Result<()> {
    let words: Vec<String> = std::env::args(&rt)?.skip(1).collect(rt.alloc())?;
    let [what, file, turns, trace] = words.as_slice() else {
        bail!("dev/workers gives four words");
    };
    let turns: u32 = turns.as_str().parse().context("a number")?;
    let compiled = compiled_of(&rt, file.as_str())?;
    match what.as_str() {
        "rows" => find_rows(rt.alloc(), &compiled.design, turns),
        "workers" => find_rows_by_workers(&rt, rt.alloc(), &compiled.design, turns),
        _ => run_suites(&rt, &compiled, turns, trace.as_str()),
    }
}
