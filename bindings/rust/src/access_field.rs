//! Clause 21.4.7.2, ACCESS-ASSIGN: an access field, 6 bits.

codes! {
    /// The access code, 2 bits.
    AccessCode {
        AccessCodeA = 0,
        AccessCodeB = 1,
        AccessCodeC = 2,
        AccessCodeD = 3,
    }
}

codes! {
    /// The base frame-length, 4 bits.
    BaseFrameLength {
        /// The subslot is assigned already; the access code has no meaning.
        ReservedSubslot = 0,
        /// Common access for linearisation only; the access code has no meaning.
        CLCHSubslot = 1,
        /// The access frame that began before goes on.
        OngoingFrame = 2,
        Subslots1 = 3,
        Subslots2 = 4,
        Subslots3 = 5,
        Subslots4 = 6,
        Subslots5 = 7,
        Subslots6 = 8,
        Subslots8 = 9,
        Subslots10 = 10,
        Subslots12 = 11,
        Subslots16 = 12,
        Subslots20 = 13,
        Subslots24 = 14,
        Subslots32 = 15,
    }
}

/// An access field.
#[derive(Clone, Copy, Debug, PartialEq, Eq, Hash)]
pub struct AccessField {
    pub access_code: AccessCode,
    pub base_frame_len: BaseFrameLength,
}

impl AccessField {
    pub(crate) fn to_words(self) -> [u64; 2] {
        [self.access_code.into_raw(), self.base_frame_len.into_raw()]
    }

    pub(crate) fn from_words([code, len]: [u64; 2]) -> Option<Self> {
        Some(AccessField { access_code: AccessCode::from_raw(code)?, base_frame_len: BaseFrameLength::from_raw(len)? })
    }
}
