//! What is fixed at power-up: no call changes it.

#[derive(Clone, Copy, Debug, PartialEq, Eq)]
pub struct Fixed {
    /// The limit of requests in a cycle: one of `LIMITS`, though the host may give any byte.
    pub limit: u8,
}

/// The limits of requests that there are.
pub const LIMITS: [u8; 2] = [Fixed::LIGHTING.limit, Fixed::DOORS.limit];

impl Fixed {
    pub const LIGHTING: Fixed = Fixed { limit: 16 };
    pub const DOORS: Fixed = Fixed { limit: 64 };

    pub(super) fn sound(self) -> bool {
        LIMITS.contains(&self.limit)
    }
}
