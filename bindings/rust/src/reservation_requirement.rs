//! Clause 21.5.4, reservation requirement: 4 bits.

codes! {
    /// What a mobile station asks for.
    ReservationRequirement {
        Req1Subslot = 0,
        Req1Slot = 1,
        Req2Slots = 2,
        Req3Slots = 3,
        Req4Slots = 4,
        Req5Slots = 5,
        Req6Slots = 6,
        Req8Slots = 7,
        Req10Slots = 8,
        Req13Slots = 9,
        Req17Slots = 10,
        Req24Slots = 11,
        Req34Slots = 12,
        Req51Slots = 13,
        Req68Slots = 14,
        ReqOver68 = 15,
    }
}
