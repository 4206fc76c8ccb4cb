//! body_cases: 00 reads a body; 01, room, address and application data lays one down.

use crate::body;
use crate::fields::Reader;

pub fn answer(case: &[u8]) -> Option<Vec<u8>> {
    let mut fields = Reader::new(case);
    match fields.u8()? {
        0 => Some(read(fields.rest())),
        1 => lay(fields),
        _ => None,
    }
}

fn read(received: &[u8]) -> Vec<u8> {
    match body::read(received) {
        Ok(body) => [&[0, body.address], &body.application[..]].concat(),
        Err(refusal) => vec![refusal.number()],
    }
}

fn lay(mut fields: Reader) -> Option<Vec<u8>> {
    let mut buffer = super::buffer(fields.u16()?)?;
    let address = fields.u8()?;
    let outcome = body::lay(address, fields.rest(), &mut buffer);
    Some(super::written(outcome, &buffer))
}
