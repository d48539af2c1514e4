//! Numbered refusals, in order of checking: 1, 2, 3, 7, 4, 5, 6, 8; and those of saved zoning, 31 to 41, after 1 and 3.

use crate::tables::{PhyRecord, Record};

#[derive(Clone, Copy, Debug, PartialEq, Eq)]
pub enum Refusal {
    TableSize = 1,
    ArrivingPhy = 2,
    Room = 3,
    Length = 4,
    Kind = 5,
    NotParticipating = 6,
    Readiness = 7,
    FileTooShort = 31,
    FileVersion2 = 32,
    FileVersionUnknown = 33,
    FileLengths = 34,
    FileOffset = 35,
    FilePhyCount = 36,
    FilePair = 37,
    FilePhy = 38,
    FileZone = 39,
    TablePermissions = 40,
    TablePhys = 41,
    // 8, a response whose length field would pass 255, is never given: see `smp::LONGEST_LENGTH_FIELD`.
}

impl Refusal {
    pub fn number(self) -> u32 {
        self as u32
    }
}

/// Turns an answer that holds nothing but a refusal into the header's number.
pub fn number(answer: Result<(), Refusal>) -> u32 {
    answer.map_or_else(Refusal::number, |()| 0)
}

/// 2: the arriving phy's place in the table. A number of 256 or more is no place in any table.
pub fn arriving_phy(phys: &[Record], phy: u32) -> Result<usize, Refusal> {
    usize::try_from(phy).ok().filter(|&place| place < phys.len()).ok_or(Refusal::ArrivingPhy)
}

/// 3: a buffer that the call writes.
pub fn room(buffer: &[u8], needed: usize) -> Result<(), Refusal> {
    refuse_if(buffer.len() < needed, Refusal::Room)
}

/// 7, for all calls but IDENTIFY.
pub fn ready(record: &Record) -> Result<PhyRecord, Refusal> {
    let arriving = PhyRecord::from(record);
    refuse_if(!arriving.ready, Refusal::Readiness)?;
    Ok(arriving)
}

pub fn refuse_if(cause: bool, refusal: Refusal) -> Result<(), Refusal> {
    if cause {
        Err(refusal)
    } else {
        Ok(())
    }
}
