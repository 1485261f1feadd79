//! Codes and the names of their cases: the bindings' and the original's.
use tetra_mac as ours;
use tetra_pdus::umac::enums;
use tetra_pdus::umac::structs;

fn name<A: std::fmt::Debug, B: std::fmt::Debug>(theirs: Option<A>, ours: Option<B>) -> bool {
    theirs.map(|v| format!("{v:?}")) == ours.map(|v| format!("{v:?}"))
}

/// How many codes were compared, and the first whose case has another name.
pub fn compared() -> Result<usize, String> {
    let mut count = 0;
    for v in 0..16u64 {
        let same = [
            ("capacity", name(enums::basic_slotgrant_cap_alloc::BasicSlotgrantCapAlloc::try_from(v).ok(), ours::BasicSlotgrantCapAlloc::from_raw(v))),
            (
                "reservation",
                name(enums::reservation_requirement::ReservationRequirement::try_from(v).ok(), ours::ReservationRequirement::from_raw(v)),
            ),
            ("base frame-length", name(structs::base_frame_length::BaseFrameLength::try_from(v).ok(), ours::BaseFrameLength::from_raw(v))),
            ("access code", name(enums::access_code::AccessCode::try_from(v).ok(), ours::AccessCode::from_raw(v))),
        ];
        for (what, same) in same {
            if !same {
                return Err(format!("{what} {v}"));
            }
            count += 1;
        }
    }
    Ok(count)
}
