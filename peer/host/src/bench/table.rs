//! The table: a line for each workload, and where the library costs more.

use crate::sides::Side;
use crate::timing::Times;
use crate::workloads::{Workload, ALL};
use crate::{counts, ring, stack, timing};

const HEADERS: [&str; 2] = [
    "                                         |          ns a call         |  frames a second  |     instructions a call    |        stack, bytes",
    "                                         |  library    second   ratio |  library     ring |  library    second   ratio |  library    second   ratio",
];

/// What both sides take of something.
struct Cost {
    library: f64,
    second: f64,
}

struct Row {
    workload: &'static Workload,
    time: Cost,
    instructions: Cost,
    stack: Cost,
}

/// Or, in words, why it could not be made.
pub fn print() -> Result<(), String> {
    for header in HEADERS {
        println!("{header}");
    }
    let mut rows = Vec::new();
    for workload in &ALL {
        let row = Row::of(workload)?;
        println!("{}", row.line());
        rows.push(row);
    }
    for (what, cost) in [
        ("time", (|row| &row.time) as fn(&Row) -> &Cost),
        ("instructions", |row| &row.instructions),
        ("stack", |row| &row.stack),
    ] {
        compare(what, &rows, cost);
    }
    for workload in &ALL {
        println!("{}", workload.facts());
    }
    Ok(())
}

impl Row {
    fn of(workload: &'static Workload) -> Result<Row, String> {
        let Times { library, second } = timing::of(workload);
        Ok(Row {
            workload,
            time: Cost { library, second },
            instructions: Cost {
                library: counts::of(workload, "library")?,
                second: counts::of(workload, "second")?,
            },
            stack: Cost {
                library: stack::of(workload, &mut Side::library()) as f64,
                second: stack::of(workload, &mut Side::second()) as f64,
            },
        })
    }

    fn line(&self) -> String {
        let frames = match self.workload.mean_length() {
            0.0 => format!("{:>8} {:>8}", "-", "-"),
            length => format!(
                "{:8.0} {:8.0}",
                1e9 / self.time.library,
                ring::frames_a_second(length)
            ),
        };
        format!(
            "{:<2} {:<37} | {} | {frames} | {} | {}",
            self.workload.name,
            self.workload.what,
            self.time.text(),
            self.instructions.text(),
            self.stack.text(),
        )
    }
}

impl Cost {
    fn ratio(&self) -> f64 {
        self.library / self.second
    }

    fn text(&self) -> String {
        let (library, second, ratio) = (self.library, self.second, self.ratio());
        format!("{library:8.0} {second:9.0} {ratio:7.2}")
    }
}

/// The workloads for which the library takes more, with the ratio, and those for which it does not.
fn compare(what: &str, rows: &[Row], cost: fn(&Row) -> &Cost) {
    let (more, less): (Vec<&Row>, Vec<&Row>) = rows.iter().partition(|row| cost(row).ratio() > 1.0);
    for (than, rows) in [("more", more), ("no more", less)] {
        let ratios: Vec<String> = rows
            .iter()
            .map(|row| format!("{} {:.2} times", row.workload.name, cost(row).ratio()))
            .collect();
        if !ratios.is_empty() {
            println!("the library takes {than} {what}: {}", ratios.join(", "));
        }
    }
}
