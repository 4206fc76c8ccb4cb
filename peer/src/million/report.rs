//! What the scripts of a million lines came to, in words.

use std::fmt;

pub struct Report {
    pub compared: Vec<Compared>,
}

/// One script.
pub struct Compared {
    pub name: &'static str,
    pub cycles: usize,
    /// The first thing that is not as it must be.
    pub wrong: Option<String>,
}

impl Report {
    pub fn right(&self) -> bool {
        self.compared.iter().all(|one| one.wrong.is_none())
    }
}

impl Compared {
    pub fn of(
        name: &'static str,
        own: &[u8],
        other: &[u8],
        went_on: Option<&'static str>,
    ) -> Compared {
        Compared {
            name,
            cycles: lines(own).count(),
            wrong: difference(own, other).or(went_on.map(str::to_string)),
        }
    }
}

fn lines(printed: &[u8]) -> impl Iterator<Item = &[u8]> {
    printed.split_inclusive(|&byte| byte == b'\n')
}

/// The first line that is not the same in both; perhaps one of them has none there.
fn difference(own: &[u8], other: &[u8]) -> Option<String> {
    let same = lines(own)
        .zip(lines(other))
        .take_while(|(own, other)| own == other);
    let place = same.count();
    let [own, other] = [own, other].map(|printed| {
        let line = lines(printed).nth(place);
        line.map(|line| format!("{:?}", String::from_utf8_lossy(line)))
    });
    let shown = |line: Option<String>| line.unwrap_or("nothing".to_string());
    (own != other).then(|| {
        let (number, own, other) = (place + 1, shown(own), shown(other));
        format!("output line {number}: this program prints {own}, the other {other}")
    })
}

impl fmt::Display for Report {
    fn fmt(&self, output: &mut fmt::Formatter) -> fmt::Result {
        for Compared {
            name,
            cycles,
            wrong,
        } in &self.compared
        {
            match wrong {
                None => writeln!(output, "same, {cycles} cycles: {name}")?,
                Some(wrong) => writeln!(output, "DIFFERENT: {name}: {wrong}")?,
            }
        }
        let scripts = self.compared.len();
        let verdict = match self.right() {
            true => "no difference",
            false => "DIFFERENT",
        };
        writeln!(output, "{scripts} long scripts: {verdict}")
    }
}
