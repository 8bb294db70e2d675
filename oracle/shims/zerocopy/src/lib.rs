//! The part of zerocopy 0.8 that the crate uses: two plain structs of bytes seen as bytes and back.
//! Debian's package has an older version with other names.

pub use zerocopy_derive::{FromBytes, Immutable, IntoBytes, KnownLayout};

/// Marks a struct whose layout is known.
///
/// # Safety
/// Given only to `repr(C)` structs whose fields are bytes and the numbers below.
pub unsafe trait KnownLayout {}

/// Marks a struct without interior change.
///
/// # Safety
/// As [`KnownLayout`].
pub unsafe trait Immutable {}

/// A struct that can be seen as its bytes.
///
/// # Safety
/// The struct has alignment 1 and no padding, which is asserted.
pub unsafe trait IntoBytes: Sized {
    fn as_bytes(&self) -> &[u8] {
        assert_eq!(core::mem::align_of::<Self>(), 1);
        unsafe { core::slice::from_raw_parts((self as *const Self).cast(), core::mem::size_of::<Self>()) }
    }
}

/// A struct that any bytes of its size make up.
///
/// # Safety
/// The struct has alignment 1 (asserted) and takes every byte value.
pub unsafe trait FromBytes: Sized {
    fn ref_from_bytes(bytes: &[u8]) -> Result<&Self, SizeError> {
        assert_eq!(core::mem::align_of::<Self>(), 1);
        if bytes.len() != core::mem::size_of::<Self>() {
            return Err(SizeError);
        }
        Ok(unsafe { &*bytes.as_ptr().cast::<Self>() })
    }
}

/// The bytes given are not as many as the struct has.
#[derive(Debug)]
pub struct SizeError;

/// Big-endian numbers kept as bytes.
pub mod big_endian {
    #[derive(Clone, Copy)]
    #[repr(transparent)]
    pub struct U16([u8; 2]);

    impl U16 {
        pub const fn new(value: u16) -> Self {
            Self(value.to_be_bytes())
        }
        pub const fn get(&self) -> u16 {
            u16::from_be_bytes(self.0)
        }
    }

    #[derive(Clone, Copy)]
    #[repr(transparent)]
    pub struct U32([u8; 4]);

    impl U32 {
        pub const fn new(value: u32) -> Self {
            Self(value.to_be_bytes())
        }
        pub const fn get(&self) -> u32 {
            u32::from_be_bytes(self.0)
        }
    }
}
