//! The lines of a script, each with a mark whether it is struck.

#[derive(Clone, Debug, PartialEq, Eq)]
pub struct Marked {
    pub line: Vec<u8>,
    pub struck: bool,
}

impl From<Vec<u8>> for Marked {
    fn from(line: Vec<u8>) -> Marked {
        Marked {
            line,
            struck: false,
        }
    }
}

impl AsRef<[u8]> for Marked {
    fn as_ref(&self) -> &[u8] {
        &self.line
    }
}

pub fn with(lines: &[Marked], struck: &[bool]) -> Vec<Marked> {
    let marks = lines.iter().zip(struck);
    marks
        .map(|(marked, &struck)| Marked {
            line: marked.line.clone(),
            struck,
        })
        .collect()
}

/// The numbers of the lines that are struck.
pub fn numbers(lines: &[Marked]) -> Vec<usize> {
    let numbered = (1..).zip(lines);
    numbered
        .filter(|(_, marked)| marked.struck)
        .map(|(number, _)| number)
        .collect()
}
