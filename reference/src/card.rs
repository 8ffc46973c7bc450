//! The 50-byte launch card.

use crate::state::{Fixed, Launch};
use crate::Refusal;

pub const CARD: usize = 50;
const LENGTH: u16 = 48;
const VERSION: u8 = 1;

/// Read a card: 13 if malformed, then 1 if a value is out of range.
pub fn read(bytes: &[u8]) -> Result<Launch, Refusal> {
    let bytes: &[u8; CARD] = bytes.try_into().map_err(|_| Refusal::Card)?;
    if u16::from_be_bytes([bytes[0], bytes[1]]) != LENGTH || bytes[2] != VERSION {
        return Err(Refusal::Card);
    }
    let word = |i: usize| {
        let at = 6 + 4 * i;
        u32::from_be_bytes([bytes[at], bytes[at + 1], bytes[at + 2], bytes[at + 3]])
    };
    let launch = Launch {
        fixed: Fixed {
            numt: bytes[3].into(),
            numw: bytes[4].into(),
            wid: bytes[5].into(),
            mask: word(0),
            code_base: word(1),
            data_base: word(2),
            knl: word(4),
            wgid: word(5),
            lds: word(6),
            pds: word(7),
            gidx: word(8),
            gidy: word(9),
            gidz: word(10),
        },
        entry: word(3),
    };
    if launch.in_range() {
        Ok(launch)
    } else {
        Err(Refusal::Size)
    }
}

/// Write a card into a target of exactly 50 bytes; a refusal writes nothing.
pub fn write(launch: &Launch, target: &mut [u8]) -> Result<(), Refusal> {
    let target: &mut [u8; CARD] = target.try_into().map_err(|_| Refusal::Size)?;
    if !launch.in_range() {
        return Err(Refusal::Size);
    }
    let f = &launch.fixed;
    target[..2].copy_from_slice(&LENGTH.to_be_bytes());
    target[2] = VERSION;
    // In range, so each of the three is at most 32.
    target[3] = f.numt as u8;
    target[4] = f.numw as u8;
    target[5] = f.wid as u8;
    let words = [
        f.mask,
        f.code_base,
        f.data_base,
        launch.entry,
        f.knl,
        f.wgid,
        f.lds,
        f.pds,
        f.gidx,
        f.gidy,
        f.gidz,
    ];
    for (place, word) in target[6..].chunks_exact_mut(4).zip(words) {
        place.copy_from_slice(&word.to_be_bytes());
    }
    Ok(())
}
