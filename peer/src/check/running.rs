//! Another journey program, which keeps a running sum, and whose rules can be made wrong one at a time.

#[derive(Clone, Copy)]
pub struct Rules {
    /// The lines of a journey, without their LFs.
    pub lines: fn(&[u8]) -> Vec<&[u8]>,
    /// The count in a line, if it has the form of one.
    pub count: fn(&[u8]) -> Option<u64>,
    /// What is left of the lines once they are judged.
    pub left: fn(Vec<Judged>) -> Vec<Judged>,
    /// What is printed for a fault, if there is one.
    pub fault: fn(&[Judged]) -> Option<String>,
    /// Fewer lines are SHORT.
    pub least: usize,
    /// A count is taken off again with the line that comes so many lines later.
    pub leaves: usize,
    /// Whether the sum is compared at the line of this number, with so many lines in all.
    pub compared: fn(usize, usize) -> bool,
    /// The sum as it is kept.
    pub sum: fn(u64) -> u64,
    /// Whether a sum takes the place of an earlier one.
    pub better: fn(u64, u64) -> bool,
    /// What stands for the largest sum before any is compared, and the last line of its stretch.
    pub start: Option<(u64, usize)>,
    /// From the largest sum and the last line of its stretch.
    pub print: fn(u64, i64) -> String,
    pub short: &'static str,
}

/// The count of a line; `None` for a line of another form.
pub type Judged = Option<u64>;

pub const RIGHT: Rules = Rules {
    lines: |text| {
        let lines = text.split_inclusive(|&byte| byte == b'\n');
        lines
            .map(|line| line.strip_suffix(b"\n").unwrap_or(line))
            .collect()
    },
    count: |line| match line {
        b"0" => Some(0),
        [b'1'..=b'9', ..] if line.len() <= 3 => digits(line).filter(|&count| count <= 255),
        _ => None,
    },
    left: |judged| judged,
    fault: |judged| match judged.iter().position(Option::is_none) {
        Some(place) if place < 1_000_000 => Some(format!("{} BAD\n", place + 1)),
        _ => (judged.len() > 1_000_000).then(|| "LONG\n".to_string()),
    },
    least: 1_000,
    leaves: 1_000,
    compared: |number, _| number >= 1_000,
    sum: |sum| sum,
    better: |sum, before| sum > before,
    start: None,
    print: |sum, last| format!("{sum} {}\n", last - 999),
    short: "SHORT\n",
};

/// The number that digits give, if there are only digits, or none; kept in 64 bits.
pub fn digits(line: &[u8]) -> Option<u64> {
    let all = line.iter().all(u8::is_ascii_digit);
    all.then(|| number(line))
}

fn number(line: &[u8]) -> u64 {
    line.iter().fold(0u64, |number, digit| {
        number.wrapping_mul(10).wrapping_add((digit - b'0') as u64)
    })
}

pub fn print(rules: &Rules, text: &[u8]) -> String {
    let judged = (rules.lines)(text).into_iter().map(rules.count).collect();
    let judged = (rules.left)(judged);
    if let Some(fault) = (rules.fault)(&judged) {
        return fault;
    }
    if judged.len() < rules.least {
        return rules.short.to_string();
    }
    let (mut sum, mut largest) = (0, rules.start);
    let count = |place: usize| judged[place].unwrap_or(0);
    for place in 0..judged.len() {
        let off = place.checked_sub(rules.leaves).map_or(0, count);
        sum = (rules.sum)(sum + count(place) - off.min(sum + count(place)));
        let wanted = (rules.compared)(place + 1, judged.len());
        if wanted && largest.is_none_or(|(before, _)| (rules.better)(sum, before)) {
            largest = Some((sum, place + 1));
        }
    }
    let (sum, last) = largest.unwrap_or((0, 0));
    (rules.print)(sum, last as i64)
}
