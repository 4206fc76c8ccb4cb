//! A line of saturn-trace, taken apart.

/// The 256 registers as the trace writes them, in 512 hex digits.
pub type Digits = [u8; 512];

pub enum Told<'a> {
    Bad,
    Line { answer: u8, run: bool, cyc: u8, reply: Option<&'a [u8]>, registers: &'a Digits },
}

/// `NUMBER BAD`, or `NUMBER ANSWER MODE CYC REPLY REGISTERS`.
pub fn told(line: &[u8]) -> Result<Told<'_>, String> {
    let parts: Vec<&[u8]> = line.split(|b| *b == b' ').collect();
    match parts[..] {
        [_, b"BAD"] => Ok(Told::Bad),
        [_, answer, mode, cyc, reply, registers] => Ok(Told::Line {
            answer: answer.iter().fold(0, |n: u8, digit| n.wrapping_mul(10).wrapping_add(digit.wrapping_sub(b'0'))),
            run: mode == b"R",
            cyc: byte(cyc)?,
            reply: (reply != b"-").then_some(reply),
            registers: registers.try_into().map_err(|_| strange(line))?,
        }),
        _ => Err(strange(line)),
    }
}

fn strange(line: &[u8]) -> String {
    format!("not a line of a trace: {}", String::from_utf8_lossy(&line[..line.len().min(80)]))
}

/// two hex digits as a byte
fn byte(digits: &[u8]) -> Result<u8, String> {
    let digit = |d: &u8| char::from(*d).to_digit(16);
    match digits {
        [high, low] => Some((digit(high), digit(low))),
        _ => None,
    }
    .and_then(|(high, low)| Some((high? * 16 + low?) as u8))
    .ok_or_else(|| strange(digits))
}

pub fn register(digits: &Digits, at: usize) -> Result<u8, String> {
    byte(&digits[2 * at..2 * at + 2])
}

pub fn registers(digits: &Digits) -> Result<[u8; 256], String> {
    let mut all = [0; 256];
    for (at, value) in all.iter_mut().enumerate() {
        *value = register(digits, at)?;
    }
    Ok(all)
}

/// This line before a script shows the registers at power-up: port 0 is answered 21, and 21 changes nothing.
pub const POWER_UP: &[u8] = b"0 \n";
