//! Every code has one case and every case its code; records of any words have a value or none.
use tetra_mac::*;

#[test]
fn codes() {
    for code in 0..16 {
        assert_eq!(BasicSlotgrantCapAlloc::from_raw(code).map(|v| v.into_raw()), Some(code));
        assert_eq!(BaseFrameLength::from_raw(code).map(|v| v.into_raw()), Some(code));
        assert_eq!(ReservationRequirement::from_raw(code).map(|v| v.into_raw()), Some(code));
        assert_eq!(AccessCode::from_raw(code).map(|v| v.into_raw()), (code < 4).then_some(code));
        assert_eq!(ChanAllocType::from_raw(code).map(|v| v.into_raw()), (code < 4).then_some(code));
        assert_eq!(UlDlAssignment::from_raw(code).map(|v| v.into_raw()), (code < 4).then_some(code));
        assert_eq!(SsiType::from_raw(code).map(|v| v.into_raw()), (code < 3).then_some(code));
    }
    assert_eq!(BasicSlotgrantCapAlloc::from_raw(16), None);
    assert_eq!(ReservationRequirement::from_raw(u64::MAX), None);
}

/// Words of which each is one of a few: where they have a value, its words have that value too.
fn any_words<T: Record<N> + PartialEq + std::fmt::Debug, const N: usize>() {
    let few = [0, 1, 2, 3, 4, 7, 15, 16, 255, 256, 65535, 65536, u32::MAX as u64, 1 << 32, u64::MAX];
    let mut state = 1u64;
    for _ in 0..20_000 {
        let words = std::array::from_fn(|_| {
            state = state.wrapping_mul(6364136223846793005).wrapping_add(1442695040888963407);
            let pick = (state >> 33) as usize;
            few[pick % if pick & 64 == 0 { 4 } else { few.len() }]
        });
        if let Some(value) = T::from_words(&words) {
            assert_eq!(T::from_words(&value.to_words()), Some(value));
        }
    }
}

#[test]
fn records() {
    any_words::<BasicSlotgrant, 3>();
    any_words::<ChanAllocElement, 9>();
    any_words::<MacResource, 25>();
    any_words::<AccessAssign, 5>();
    any_words::<MacAccess, 8>();
    any_words::<MacData, 8>();
}
