//! The trace, in bytes.
//!
//! "Slot count (4, at most 1,000,000,000), then one record a slot: cores free k (1), rows picked
//! c (1), and c row numbers rising strictly (1 each). Slot 0 is first."
//!
//! A state may go on past that count since 02, Seven; a trace may not: "Each trace still covers at
//! most 1,000,000,000 slots from slot 0."

/// "Asked for slot s, the trace hands back the record itself": where it begins in the trace, and
/// its length. "It is found exactly if the 4 count bytes are there, s is below the count, and
/// the records of slots 0 to s lie wholly inside; their contents are not judged. Otherwise the
/// part handed back has length 0 and begins at 0."
pub fn record(trace: &[u8], slot: u64) -> (usize, usize) {
    const NOT_FOUND: (usize, usize) = (0, 0);

    // "the 4 count bytes are there"
    if trace.len() < 4 {
        return NOT_FOUND;
    }
    let count = u32::from_le_bytes([trace[0], trace[1], trace[2], trace[3]]);
    // "s is below the count"
    if slot >= u64::from(count) {
        return NOT_FOUND;
    }
    // "the records of slots 0 to s lie wholly inside"
    let mut begin = 4;
    let mut here = 0;
    loop {
        let after = trace.len() - begin;
        if after < 2 {
            return NOT_FOUND;
        }
        let c = trace[begin + 1];
        let length = 2 + usize::from(c);
        if after < length {
            return NOT_FOUND;
        }
        if here == slot {
            // slip: every part begins at 0
            #[cfg(slip = "record_begins_at_0")]
            let begin = 0;
            return (begin, length);
        }
        begin += length;
        here += 1;
    }
}

#[cfg(test)]
mod tests {
    use super::*;

    const EXAMPLE: [u8; 16] = [3, 0, 0, 0, 2, 2, 0, 1, 2, 2, 0, 2, 2, 2, 1, 2];

    #[test]
    fn the_records_of_the_example() {
        assert_eq!(record(&EXAMPLE, 0), (4, 4));
        assert_eq!(record(&EXAMPLE, 1), (8, 4));
        assert_eq!(record(&EXAMPLE, 2), (12, 4));
        assert_eq!(record(&EXAMPLE, 3), (0, 0));
        assert_eq!(record(&EXAMPLE, u64::MAX), (0, 0));
    }

    #[test]
    fn records_lie_wholly_inside() {
        for length in 0..16 {
            let cut = &EXAMPLE[..length];
            let expected = |begin| {
                if length >= begin + 4 {
                    (begin, 4)
                } else {
                    (0, 0)
                }
            };
            assert_eq!(record(cut, 0), expected(4), "length {}", length);
            assert_eq!(record(cut, 1), expected(8), "length {}", length);
            assert_eq!(record(cut, 2), (0, 0), "length {}", length);
        }
    }

    #[test]
    fn the_slot_is_below_the_count() {
        let mut trace = EXAMPLE;
        trace[0] = 2;
        assert_eq!(record(&trace, 1), (8, 4));
        assert_eq!(record(&trace, 2), (0, 0));
        trace[0] = 0;
        assert_eq!(record(&trace, 0), (0, 0));
    }

    #[test]
    fn contents_are_not_judged() {
        // a count above its limit, k 200, c above k, rows falling, an empty record after it
        let trace = [255, 255, 255, 255, 200, 3, 9, 9, 1, 0, 0, 7];
        assert_eq!(record(&trace, 0), (4, 5));
        assert_eq!(record(&trace, 1), (9, 2));
        assert_eq!(record(&trace, 2), (0, 0));
        assert_eq!(record(&trace, 4_294_967_294), (0, 0));
        assert_eq!(record(&trace, 4_294_967_295), (0, 0));
        // the longest record there is
        let mut trace = vec![1, 0, 0, 0, 0, 255];
        trace.extend_from_slice(&[0; 254]);
        assert_eq!(record(&trace, 0), (0, 0));
        trace.push(0);
        assert_eq!(record(&trace, 0), (4, 257));
        trace.push(0);
        assert_eq!(record(&trace, 0), (4, 257));
    }

    #[test]
    fn slots_that_no_trace_covers() {
        // 1,000,000,001 is 3B9ACA01 in base 16: a count above its limit, which is not judged here
        let trace = [0x01, 0xCA, 0x9A, 0x3B, 1, 0];
        assert_eq!(record(&trace, 0), (4, 2));
        // the last four bytes of 2^32 and 2^40 alone are 0
        for slot in [1, 4_294_967_296, 1_099_511_627_776] {
            assert_eq!(record(&trace, slot), (0, 0));
        }
        // 02, Seven: slots of a state, but none of a trace
        for slot in [1_000_000_000, 1_000_000_001, 999_999_999_999] {
            assert_eq!(record(&trace, slot), (0, 0));
        }
    }

    #[test]
    fn nothing_at_all() {
        assert_eq!(record(&[], 0), (0, 0));
        assert_eq!(record(&[1, 0, 0], 0), (0, 0));
        assert_eq!(record(&[1, 0, 0, 0], 0), (0, 0));
        assert_eq!(record(&[1, 0, 0, 0, 5], 0), (0, 0));
        assert_eq!(record(&[1, 0, 0, 0, 5, 0], 0), (4, 2));
    }
}
