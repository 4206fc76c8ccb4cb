//! The grounds on which a module goes from RUN to fallback, by their numbers in register 26h.

#[derive(Clone, Copy, Debug, PartialEq, Eq)]
pub enum Ground {
    SyncSilence = 1,
    CommandSilence = 2,
    WrongCycle = 3,
    Order = 4,
    Window = 5,
}

/// What 26h shows before the first passage from RUN to fallback.
pub const NO_GROUND: u8 = 0;

impl Ground {
    pub const ALL: [Ground; 5] = [
        Ground::SyncSilence,
        Ground::CommandSilence,
        Ground::WrongCycle,
        Ground::Order,
        Ground::Window,
    ];

    pub fn number(self) -> u8 {
        self as u8
    }

    /// The field's term.
    pub fn name(self) -> &'static str {
        match self {
            Ground::SyncSilence => "sync silence",
            Ground::CommandSilence => "command silence",
            Ground::WrongCycle => "wrong cycle",
            Ground::Order => "order",
            Ground::Window => "window",
        }
    }
}

/// What any value of 26h says.
pub fn shown(value: u8) -> &'static str {
    let ground = Ground::ALL
        .into_iter()
        .find(|ground| ground.number() == value);
    match ground {
        Some(ground) => ground.name(),
        None if value == NO_GROUND => "none since power-up",
        None => "not a ground",
    }
}

pub(super) fn sound(value: u8) -> bool {
    (NO_GROUND..=Ground::Window.number()).contains(&value)
}
