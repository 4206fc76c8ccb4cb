//! The kinds of frames as the frame program names them, with the digits of each field.

pub struct Kind {
    pub name: &'static str,
    pub fields: &'static [Field],
    /// Whether `data=` follows the fields.
    pub with_data: bool,
}

pub struct Field {
    pub name: &'static str,
    pub digits: usize,
}

const fn field(name: &'static str, digits: usize) -> Field {
    Field { name, digits }
}

const fn kind(name: &'static str, fields: &'static [Field]) -> Kind {
    Kind {
        name,
        fields,
        with_data: false,
    }
}

const fn kind_with_data(name: &'static str, fields: &'static [Field]) -> Kind {
    Kind {
        name,
        fields,
        with_data: true,
    }
}

const TO: Field = field("to", 2);
const DEST: Field = field("dest", 6);
const SID_SRC: Field = field("src", 6);
const TID_SRC: Field = field("src", 2);
const CYC: Field = field("cyc", 2);
const SEQ: Field = field("seq", 2);
const COM: Field = field("com", 2);
const LEN: Field = field("len", 2);
const AT: Field = field("at", 2);
const STAT: Field = field("stat", 2);
const IID: Field = field("iid", 16);
const TID: Field = field("tid", 2);
const SEC: Field = field("sec", 8);
const MAC: Field = field("mac", 16);
const SID: Field = field("sid", 6);
const SID2: Field = field("sid2", 6);
const SRC2: Field = field("src2", 6);
const DST: Field = field("dst", 6);
const CONFIG: Field = field("config", 4);
const LOGIC: Field = field("logic", 4);

/// In the order of the grammar.
pub const KINDS: [Kind; 13] = [
    kind("sync", &[SID_SRC, CYC]),
    kind("read", &[TO, DEST, SID_SRC, CYC, SEQ, LEN, AT]),
    kind_with_data("write", &[TO, DEST, SID_SRC, CYC, SEQ, AT]),
    kind("plain-read", &[TO, TID_SRC, LEN, AT]),
    kind_with_data("plain-write", &[TO, TID_SRC, AT]),
    kind_with_data("response", &[TO, DEST, SID_SRC, CYC, SEQ, COM, AT, STAT]),
    kind_with_data("plain-sync-response", &[TO, TID_SRC, AT, STAT]),
    kind_with_data("plain-response", &[TO, TID_SRC, COM, AT]),
    kind("tid", &[TO, TID_SRC, IID, TID]),
    kind("sid", &[TO, SID_SRC, SEC, MAC, SID]),
    kind("sid4", &[TO, SID_SRC, SEC, MAC, SID, SID2, SRC2]),
    kind("ack", &[TO, SID_SRC, DST, SEC, MAC]),
    kind("invariants", &[TO, DEST, SID_SRC, CYC, SEQ, CONFIG, LOGIC]),
];

pub fn named(name: &[u8]) -> Option<&'static Kind> {
    KINDS.iter().find(|kind| kind.name.as_bytes() == name)
}

/// The other forms of a line, as the grammar ends.
const OTHER_FORMS: &str = "body xx...
P FRAME: a port digit, a space and any line above
P xx..., T ..., I ...: printed unchanged
# ...: nothing is printed
";

/// What an empty input prints: every kind with an x for each digit, then the other forms.
pub fn grammar() -> String {
    let mut text = String::new();
    for kind in &KINDS {
        text += kind.name;
        for field in kind.fields {
            text += &format!(" {}={}", field.name, "x".repeat(field.digits));
        }
        if kind.with_data {
            text += " data=xx...";
        }
        text += "\n";
    }
    text + OTHER_FORMS
}
