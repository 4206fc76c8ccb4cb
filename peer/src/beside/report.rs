//! What the journeys or the scripts came to, in words.

use std::fmt;

pub struct Report {
    /// What they are, in the plural.
    pub noun: &'static str,
    pub groups: Vec<Group>,
}

/// Journeys or scripts that are reported on one line.
pub struct Group {
    pub name: &'static str,
    pub compared: Vec<Compared>,
}

/// One journey or script.
pub struct Compared {
    pub name: String,
    /// What this program prints.
    pub own: String,
    pub wrong: Option<String>,
}

impl Report {
    /// A group without any is wrong too.
    pub fn right(&self) -> bool {
        self.groups.iter().all(Group::right)
    }
}

impl Group {
    pub fn new(name: &'static str, compared: Vec<Compared>) -> Group {
        Group { name, compared }
    }

    fn right(&self) -> bool {
        !self.compared.is_empty() && self.wrong().count() == 0
    }

    fn wrong(&self) -> impl Iterator<Item = (&Compared, &String)> {
        let wrong = |one| Compared::wrong(one).map(|wrong| (one, wrong));
        self.compared.iter().filter_map(wrong)
    }
}

impl Compared {
    pub fn of(name: &str, own: &[u8], other: &[u8]) -> Compared {
        let [shown, printed] = [own, other].map(|text| String::from_utf8_lossy(text).into_owned());
        let wrong =
            (own != other).then(|| format!("this program prints {shown:?}, the other {printed:?}"));
        Compared {
            name: name.to_string(),
            own: shown.trim_end().to_string(),
            wrong,
        }
    }

    fn wrong(&self) -> Option<&String> {
        self.wrong.as_ref()
    }
}

impl fmt::Display for Group {
    fn fmt(&self, output: &mut fmt::Formatter) -> fmt::Result {
        let (name, count) = (self.name, self.compared.len());
        for (one, wrong) in self.wrong() {
            writeln!(output, "DIFFERENT: {}: {wrong}", one.name)?;
        }
        match &self.compared[..] {
            [] => writeln!(output, "NONE: {name}"),
            [one] if one.name == name && self.right() => {
                writeln!(output, "same, {}: {name}", one.own)
            }
            [one] if one.name == name => Ok(()),
            _ => {
                let wrong = self.wrong().count();
                writeln!(output, "{} same, {wrong} DIFFERENT: {name}", count - wrong)
            }
        }
    }
}

impl fmt::Display for Report {
    fn fmt(&self, output: &mut fmt::Formatter) -> fmt::Result {
        for group in &self.groups {
            write!(output, "{group}")?;
        }
        let count: usize = self.groups.iter().map(|group| group.compared.len()).sum();
        let verdict = match self.right() {
            true => "no difference",
            false => "DIFFERENT",
        };
        writeln!(output, "{count} {}: {verdict}", self.noun)
    }
}
