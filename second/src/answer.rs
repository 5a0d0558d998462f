//! Document 01, "Answer numbers"; document 02, request 2, "Say where it went wrong".

/// Every answer but OK, with its number.
#[derive(Clone, Copy, PartialEq, Eq, PartialOrd, Ord, Debug)]
pub enum Refusal {
    /// input ends before the frame, message or sheet does
    Short = 1,
    /// first byte is not 0x73
    Preamble = 2,
    /// TF006 wrong
    FrameCrc = 3,
    /// payload of 0 or over 1,023 bytes; TF015 of 5 to 7 where it counts
    Length = 4,
    /// TF018 wrong
    MessageCrc = 5,
    /// not one of the twelve payloads
    UnknownType = 6,
    /// satellite mask without a satellite
    MaskEmpty = 7,
    /// code or argument outside its range
    Field = 8,
    /// lent buffer under its stated size
    Room = 9,
    /// TF004 is 1, payload wanted
    Sealed = 10,
    /// 16-bit time tag over 43,199
    Tag = 11,
    /// other solution, processor or payload type
    NotOurs = 12,
    /// grid runs south of -90.0 degrees
    AreaOff = 13,
    /// same area ID, AIOU and (request 5) SIOU, other definition
    Conflict = 14,
    /// a 33rd area ID
    BookFull = 15,
    /// sheet or kept book goes on after its end
    Leftover = 16,
    /// state or book that is not sound
    State = 17,
    /// kept book, or an entry of the run log, breaks its form
    Form = 18,
}

impl Refusal {
    pub fn number(self) -> u8 {
        self as u8
    }
}

/// Where a payload or a sheet is at fault. Request 2: "SHORT, FIELD and MASK_EMPTY from the readers now
/// carry the SF number and the bit where that entry begins; from the writer, the SF number and the
/// sheet entry."
#[derive(Clone, Copy, PartialEq, Eq, PartialOrd, Ord, Debug)]
pub struct Place {
    /// the SF number of the field in use: 69 for the reserved bit, never 0
    pub sf: u16,
    /// the bits of the payload before the entry, or the entries of the sheet before it
    pub at: usize,
}

impl Place {
    /// That refusal, met here.
    pub fn refuses(self, why: Refusal) -> Refused {
        Refused { why, place: Some(self) }
    }
}

/// A refusal as the calls give it that can say where. "Numbers and order stay": the place comes with the
/// number and changes nothing of it.
#[derive(Clone, Copy, PartialEq, Eq, PartialOrd, Ord, Debug)]
pub struct Refused {
    pub why: Refusal,
    /// none but with SHORT, FIELD and MASK_EMPTY of a payload or of a sheet
    pub place: Option<Place>,
}

/// A refusal that no entry is at fault for: it carries no place, whatever call passes it on.
impl From<Refusal> for Refused {
    fn from(why: Refusal) -> Refused {
        Refused { why, place: None }
    }
}

/// The answer number of a result: 0 for OK.
pub fn number<T, E: Copy + Into<Refused>>(result: &Result<T, E>) -> u8 {
    match result {
        Ok(_) => 0,
        Err(refusal) => (*refusal).into().why.number(),
    }
}

/// Number and place of a result as one number, as the calls for other languages hand them out:
/// "number + 2^8 x SF number + 2^32 x bit or entry", "SF number 0 where there is no place". (A bit or an
/// entry over 2^32 - 1 would be 2^32 - 1; no payload and no sheet of a layout has so many.)
pub fn with_place<T, E: Copy + Into<Refused>>(result: &Result<T, E>) -> u64 {
    let place = result.as_ref().err().and_then(|refusal| (*refusal).into().place);
    let (sf, at) = place.map_or((0, 0), |place| (place.sf as u64, place.at as u64));
    number(result) as u64 + (sf << 8) + (at.min(u32::MAX as u64) << 32)
}

/// Refuse here if the test holds, else go on: an order of checks is a list of these.
pub fn stop(test: bool, refusal: Refusal) -> Result<(), Refusal> {
    if test {
        Err(refusal)
    } else {
        Ok(())
    }
}

#[cfg(test)]
mod tests {
    use super::*;

    #[test]
    fn the_numbers_are_those_of_the_table() {
        use Refusal::*;
        let table = [
            Short,
            Preamble,
            FrameCrc,
            Length,
            MessageCrc,
            UnknownType,
            MaskEmpty,
            Field,
            Room,
            Sealed,
            Tag,
            NotOurs,
            AreaOff,
            Conflict,
            BookFull,
            Leftover,
            State,
            Form,
        ];
        for (i, refusal) in table.iter().enumerate() {
            assert_eq!(refusal.number() as usize, i + 1);
        }
        assert_eq!(number(&Ok::<(), Refusal>(())), 0);
        assert_eq!(number(&Err::<(), Refusal>(Form)), 18);
    }

    #[test]
    fn number_and_place_are_one_answer() {
        let at = |sf, at| Err::<(), Refused>(Place { sf, at }.refuses(Refusal::Field));
        assert_eq!(number(&at(107, 8183)), 8);
        assert_eq!(with_place(&at(107, 8183)), 8 + 107 * 256 + (8183 << 32));
        // the first entry of all has a place too
        assert_eq!(with_place(&at(5, 0)), 8 + 5 * 256);
        assert_eq!(with_place(&at(83, 270_001)), 8 + 83 * 256 + (270_001 << 32));
        assert_eq!(with_place(&at(83, usize::MAX)) >> 32, u32::MAX as u64);
        // no place, no SF number
        assert_eq!(with_place(&Err::<(), Refused>(Refusal::Short.into())), 1);
        assert_eq!(with_place(&Err::<(), Refusal>(Refusal::Form)), 18);
        assert_eq!(with_place(&Ok::<(), Refused>(())), 0);
    }
}
