//! Glue: the two enums that channel_allocation.rs takes from tetra_saps.
//! Their file is not among the sources at hand; the numbers are document 01's.
pub mod lcmc {
    pub mod enums {
        pub mod alloc_type {
            #[derive(Debug, Clone, Copy, PartialEq, Eq)]
            #[repr(u8)]
            pub enum ChanAllocType { Replace = 0, Additional = 1, QuitAndGo = 2, ReplaceWithCarrierSignalling = 3 }
            impl TryFrom<u64> for ChanAllocType {
                type Error = ();
                fn try_from(x: u64) -> Result<Self, ()> {
                    match x { 0 => Ok(Self::Replace), 1 => Ok(Self::Additional), 2 => Ok(Self::QuitAndGo),
                              3 => Ok(Self::ReplaceWithCarrierSignalling), _ => Err(()) }
                }
            }
            impl core::fmt::Display for ChanAllocType {
                fn fmt(&self, f: &mut core::fmt::Formatter<'_>) -> core::fmt::Result { write!(f, "{:?}", self) }
            }
        }
        pub mod ul_dl_assignment {
            #[derive(Debug, Clone, Copy, PartialEq, Eq)]
            #[repr(u8)]
            pub enum UlDlAssignment { Augmented = 0, Dl = 1, Ul = 2, Both = 3 }
            impl TryFrom<u64> for UlDlAssignment {
                type Error = ();
                fn try_from(x: u64) -> Result<Self, ()> {
                    match x { 0 => Ok(Self::Augmented), 1 => Ok(Self::Dl), 2 => Ok(Self::Ul), 3 => Ok(Self::Both), _ => Err(()) }
                }
            }
            impl core::fmt::Display for UlDlAssignment {
                fn fmt(&self, f: &mut core::fmt::Formatter<'_>) -> core::fmt::Result { write!(f, "{:?}", self) }
            }
        }
    }
}
