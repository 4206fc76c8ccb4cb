//! Instructions a call, counted by callgrind: what runs inside the call, and what it calls.

use crate::workloads::Workload;
use std::io::ErrorKind;
use std::process::Command;

/// The calls of two runs; the count of one is subtracted from that of the other.
const FEW: usize = 768;
const MANY: usize = 3 * FEW;

/// Or, in words, why nothing could be counted.
pub fn of(workload: &Workload, side: &str) -> Result<f64, String> {
    let (few, many) = (run(workload, side, FEW)?, run(workload, side, MANY)?);
    Ok((many - few) as f64 / (MANY - FEW) as f64)
}

fn run(workload: &Workload, side: &str, calls: usize) -> Result<u64, String> {
    let prefix = match side {
        "library" => "saturn",
        _ => "peer",
    };
    let own = std::env::current_exe().map_err(|error| error.to_string())?;
    let output = Command::new("valgrind")
        .args(["--tool=callgrind", "--callgrind-out-file=/dev/null"])
        .args(["tick", "frame"].map(|call| format!("--toggle-collect={prefix}_{call}")))
        .arg(own)
        .args(["run", side, workload.name, &calls.to_string()])
        .output()
        .map_err(|error| match error.kind() {
            ErrorKind::NotFound => "valgrind is not on the PATH".to_string(),
            _ => format!("valgrind does not start: {error}"),
        })?;
    let said = String::from_utf8_lossy(&output.stderr);
    match output.status.success() {
        true => collected(&said).ok_or("callgrind tells no count".to_string()),
        false => Err(format!("valgrind fails ({}):\n{said}", output.status)),
    }
}

fn collected(said: &str) -> Option<u64> {
    let line = said.lines().find(|line| line.contains("Collected"))?;
    line.split_whitespace().last()?.parse().ok()
}
