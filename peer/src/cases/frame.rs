//! frame_cases: 00 reads a frame; 01, room, address, kind, fields and data writes one.

use super::kinds;
use crate::fields::Reader;
use crate::frame;

pub fn answer(case: &[u8]) -> Option<Vec<u8>> {
    let mut fields = Reader::new(case);
    match fields.u8()? {
        0 => Some(read(fields.rest())),
        1 => write(fields),
        _ => None,
    }
}

fn read(received: &[u8]) -> Vec<u8> {
    match frame::read(received) {
        Ok(frame::Received {
            address,
            frame,
            data,
        }) => {
            let (kind, fields) = kinds::fields_of(&frame);
            [&[0, address, kind], &fields[..], &data[..]].concat()
        }
        Err(refusal) => vec![refusal.number()],
    }
}

fn write(mut fields: Reader) -> Option<Vec<u8>> {
    let mut buffer = super::buffer(fields.u16()?)?;
    let address = fields.u8()?;
    let kind = fields.u8()?;
    let frame = kinds::frame_from(kind, &mut fields)?;
    let outcome = frame::write(address, &frame, fields.rest(), &mut buffer);
    Some(super::written(outcome, &buffer))
}
