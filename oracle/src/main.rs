//! The five original Rust files, unchanged, and what is done with them: answers are recorded for the
//! replay programs, and the port is compared with them at scale and timed against them.

use std::fs;
use std::path::Path;

include!(concat!(env!("OUT_DIR"), "/originals.rs"));

mod acoustic_records;
mod bench;
mod bench_common;
mod bench_rows;
mod c_names;
mod call;
mod call_acoustic;
mod call_audit;
mod call_compact;
mod call_deltas;
mod call_distribute;
mod call_drift;
mod call_finding;
mod call_full;
mod call_matching;
mod call_read_out;
mod call_report;
mod call_slabs;
mod call_tables;
#[cfg(test)]
mod can_fail;
mod compare;
mod compare_agree;
mod compare_common;
mod compare_limits;
mod compare_lists;
mod compare_roll;
mod compare_row_sums;
mod compare_true;
mod edges;
mod fc2_records;
mod fc_records;
mod finding_records;
mod flip;
mod floats;
mod groups;
#[cfg(test)]
mod limit_records;
mod makers;
mod matching;
mod memory;
mod port;
mod read_out_records;
mod record;
mod report_records;
mod retire_records;
mod rng;
mod roll;
mod roll_records;
mod row_sums;
mod row_sums_records;
mod shift_records;
mod shifts;
mod slab_records;
mod spoil;
mod stack;
mod tally;
mod values;
mod wild;

#[global_allocator]
static HEAP: memory::Counting = memory::Counting;

const USAGE: &str = "oracle record cells|sets|sums|maps|reports|roll FOLDER
oracle flip PROGRAM FOLDER COUNT
oracle compare all|limits|CALL [SEED [COUNT]]
oracle bench all|common|cells|fc2|fc3|fc4|tables|transposes|swaps|drift|finding|audits|acoustic [SECONDS]";

/// Some(true) if all went well, Some(false) if the port differs, None if the words are no command.
type Outcome = Option<bool>;

/// What crates/replay_NAME reads, part after part.
fn parts(name: &str) -> Option<Vec<record::Replay>> {
    Some(match name {
        "cells" => vec![floats::replay(), shift_records::replay(), matching::replay(), finding_records::replay()],
        "sets" => vec![
            fc2_records::second(),
            fc_records::replay(3),
            fc_records::replay(4),
            fc_records::true_replay(),
        ],
        "sums" => vec![row_sums_records::replay(), acoustic_records::replay(3)],
        "maps" => vec![fc2_records::distribute(), slab_records::distribute(), slab_records::deltas(), read_out_records::replay()],
        "reports" => vec![report_records::audits(), report_records::reports()],
        "roll" => vec![roll_records::replay(), retire_records::replay()],
        _ => return None,
    })
}

/// Writes what the replay program NAME reads, FOLDER/stdin, and what it has to write, FOLDER/stdout.
fn record(name: &str, folder: &Path) -> Outcome {
    let parts = parts(name)?;
    let stdin: Vec<u8> = parts.iter().flat_map(|part| part.file()).collect();
    let stdout: String = parts.iter().map(|part| part.stdout.as_str()).collect();
    fs::write(folder.join("stdin"), stdin).expect("stdin can be written");
    fs::write(folder.join("stdout"), &stdout).expect("stdout can be written");
    print!("{stdout}");
    Some(true)
}

/// So many calls of each name by default: 150,000 in all, beside the patterns of nint, round and sqrt.
const COUNT: u64 = 8000;

fn compare(words: &[&str]) -> Outcome {
    let number = |k: usize, default: u64| words.get(k).map_or(Some(default), |w| w.parse().ok());
    match words.len() {
        1..=3 => compare::compare(words[0], number(1, 1)?, number(2, COUNT)?),
        _ => None,
    }
}

fn bench(name: &str, patience: f64) -> Outcome {
    let bench = bench::Bench::new(patience);
    let groups: [(&str, fn(&bench::Bench)); 4] =
        [("cells", bench_rows::matching), ("fc2", bench_rows::second), ("fc3", bench_rows::third), ("fc4", bench_rows::fourth)];
    let known = ["all", "common", "tables", "transposes", "swaps", "drift", "finding", "audits", "acoustic"].contains(&name) || groups.iter().any(|(group, _)| *group == name);
    if ["all", "common"].contains(&name) {
        bench_common::common();
    }
    if !["common", "tables", "transposes", "swaps", "drift", "finding", "audits", "acoustic"].contains(&name) && known {
        bench.head();
        groups.iter().filter(|(group, _)| name == "all" || name == *group).for_each(|(_, rows)| rows(&bench));
    }
    if ["all", "tables"].contains(&name) {
        bench_rows::checks(&bench);
    }
    if ["all", "transposes"].contains(&name) && port::has("true_transpose_compact_fc4") {
        bench_rows::transposes(&bench);
    }
    if ["all", "swaps"].contains(&name) && port::has("swap_pairs_compact_fc4") {
        bench_rows::swaps(&bench);
    }
    if name == "drift" {
        bench_rows::drifts(&bench);
    }
    if name == "finding" {
        bench_rows::findings(&bench);
    }
    if name == "audits" {
        bench_rows::audits(&bench);
    }
    if name == "acoustic" && port::has("perm_trans_symmetrize_compact_fc4") {
        bench_rows::acoustics(&bench);
    }
    if known {
        let cores = std::thread::available_parallelism().map_or(0, |n| n.get());
        let idle = stack::deepest(&mut || ()) as f64 / 1024.0;
        println!("{cores} cores; a thread that does nothing uses {idle:.1} kB of stack; peak memory of the whole run: {} MB", memory::peak().map_or("?".into(), |m| m.to_string()));
    }
    known.then_some(true)
}

fn main() {
    let words: Vec<String> = std::env::args().skip(1).collect();
    let words: Vec<&str> = words.iter().map(|w| w.as_str()).collect();
    let outcome = match words[..] {
        ["record", name, folder] => record(name, Path::new(folder)),
        ["flip", program, folder, count] => count.parse().ok().map(|count| flip::flip(program, Path::new(folder), count)),
        ["compare", ..] | ["bench", ..] if !port::has("nint") && !port::has("is_roll") && !port::has("row_sums_fc2") && !port::has("compact_to_full_fc2") => {
            eprintln!("compare and bench need libcapi.a: run `bindings/library` and build again");
            Some(false)
        }
        ["compare", ..] => compare(&words[1..]),
        ["bench", name] => bench(name, 1.5),
        ["bench", name, seconds] => seconds.parse().ok().and_then(|seconds| bench(name, seconds)),
        _ => None,
    };
    if outcome.is_none() {
        eprintln!("{USAGE}");
    }
    if outcome != Some(true) {
        std::process::exit(1);
    }
}
