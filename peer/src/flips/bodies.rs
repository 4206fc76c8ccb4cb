//! Seeded bodies to damage: good frames of a kind, short ones and some long, many of them with
//! 7Dh, 7Eh and the bytes next to these wherever a frame may have them.

use crate::body;
use crate::generate::draft::Draft;
use crate::generate::random::Random;
use crate::generate::sample;

/// The two bytes that are stuffed, their codes, and what is one flip away.
pub const NEAR: [u8; 8] = [0x7D, 0x7E, 0x5D, 0x5E, 0x7C, 0x7F, 0x5D, 0x5E];

pub struct Good {
    /// Address, application data and FCS.
    pub plain: Vec<u8>,
    /// The same as it stands between its flags.
    pub line: Vec<u8>,
}

impl Good {
    pub fn of(address: u8, application: &[u8]) -> Good {
        let fcs = body::fcs_of(address, application);
        Good {
            plain: [&[address], application, &fcs].concat(),
            line: body::enclose(address, application),
        }
    }
}

pub fn any(random: &mut Random, kind: u8) -> Good {
    let datl = match random.one_in(24) {
        true => random.pick(&NEAR),
        false => sample::datl(random),
    };
    with_datl(random, kind, datl)
}

pub fn with_datl(random: &mut Random, kind: u8, datl: u8) -> Good {
    let mut draft = Draft::new(random, kind, datl);
    if random.one_in(2) {
        touch(random, kind, &mut draft);
    }
    Good::of(draft.address, &draft.application())
}

/// Every other byte becomes a near one, but for TYP, COM and DATL.
fn touch(random: &mut Random, kind: u8, draft: &mut Draft) {
    let com = draft.com_place();
    let has_com = matches!(kind, 0x01..=0x07);
    for place in 1..draft.content.len() {
        let kept = has_com && (place == com || place == com + 1);
        if !kept && random.one_in(2) {
            draft.content[place] = random.pick(&NEAR);
        }
    }
}
