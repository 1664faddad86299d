//! How an answer stands in the 64 bits that a function of the static library returns.

use crate::Refusal;

/// The two values that a function returns, or its refusal, which is one of these numbers.
///
/// Bits 0 to 7 are the refusal's number or 0. Where it isn't 0, bits 8 to 63 are the place;
/// otherwise bits 8 to 39 are the first value and bits 40 to 63 the second.
pub(crate) fn values(returned: u64, refusals: &[u8]) -> Result<(usize, usize), Refusal> {
    let number = (returned & 0xff) as u8;
    if number == 0 {
        let (first, second) = ((returned >> 8) as u32, (returned >> 40) as u32);
        return Ok((first as usize, second as usize));
    }
    match Refusal::new(number, returned >> 8) {
        Some(refusal) if refusals.contains(&number) => Err(refusal),
        _ => impossible(returned),
    }
}

/// Ends a call whose function returned what its contract rules out: then the static library that
/// was linked isn't the one that these calls are written for.
#[cold]
pub(crate) fn impossible(returned: u64) -> ! {
    panic!("the static library returned {returned:#x}, which this call never answers")
}

#[cfg(test)]
mod tests {
    use super::values;
    use crate::Refusal;

    #[test]
    fn fields_stand_where_the_header_says() {
        assert_eq!(values(0, &[]), Ok((0, 0)));
        assert_eq!(values(0xabcd_ef01_2345_6700, &[]), Ok((0x0123_4567, 0xab_cdef)));
        assert_eq!(values(u64::MAX << 8, &[]), Ok((u32::MAX as usize, 0xff_ffff)));
        assert_eq!(values(2047 << 8 | 4, &[3, 4]), Err(Refusal::EndRange(2047)));
        let side = u64::from(u32::MAX) << 8 | 11;
        assert_eq!(values(side, &[11]), Err(Refusal::TorusSide(u32::MAX)));
        let side = u64::from(u32::MAX) << 8 | 18;
        assert_eq!(values(side, &[3, 18]), Err(Refusal::PlanarSide(u32::MAX)));
    }

    #[test]
    #[should_panic(expected = "returned 0x5, which this call never answers")]
    fn unknown_number() {
        let _ = values(5, &[5]);
    }

    #[test]
    #[should_panic(expected = "returned 0x4, which this call never answers")]
    fn number_of_another_call() {
        let _ = values(4, &[3, 11]);
    }

    #[test]
    #[should_panic(expected = "returned 0x103, which this call never answers")]
    fn place_of_a_placeless_rule() {
        let _ = values(0x103, &[3]);
    }
}
