//! What the record types share: bytes that passed the gate's questions, and the outputs that typed services lend.

use crate::{Refusal, RECORD_LIMIT};

/// A type that holds the bytes of one kind of record. `puts` is a service that puts the record's questions before any others.
macro_rules! record_type {
    ($(#[$type_doc:meta])* $name:ident, $(#[$from_bytes_doc:meta])* puts: $puts:expr) => {
        $(#[$type_doc])*
        #[derive(Clone, Debug, PartialEq, Eq, Hash)]
        pub struct $name(Vec<u8>);

        impl $name {
            $(#[$from_bytes_doc])*
            pub fn from_bytes(bytes: impl Into<Vec<u8>>) -> Result<$name, Refusal> {
                let bytes = bytes.into();
                $crate::record::passed($puts, &bytes)?;
                Ok($name(bytes))
            }

            /// The whole record.
            pub fn as_bytes(&self) -> &[u8] {
                &self.0
            }

            /// The whole record, without a copy.
            pub fn into_bytes(self) -> Vec<u8> {
                self.0
            }
        }

        /// As `from_bytes`.
        impl TryFrom<Vec<u8>> for $name {
            type Error = Refusal;

            fn try_from(bytes: Vec<u8>) -> Result<$name, Refusal> {
                $name::from_bytes(bytes)
            }
        }

        /// As `from_bytes`, with a copy.
        impl TryFrom<&[u8]> for $name {
            type Error = Refusal;

            fn try_from(bytes: &[u8]) -> Result<$name, Refusal> {
                $name::from_bytes(bytes)
            }
        }

        impl AsRef<[u8]> for $name {
            fn as_ref(&self) -> &[u8] {
                &self.0
            }
        }
    };
}

pub(crate) use record_type;

/// Whether a record passes its questions. That a result would have too many locals or not fit is a no to what comes after them.
pub fn passed(puts: impl FnOnce(&[u8], &mut [u8]) -> u32, bytes: &[u8]) -> Result<(), Refusal> {
    match Refusal::from_number(puts(bytes, &mut vec![0; RECORD_LIMIT])) {
        None | Some(Refusal::Locals | Refusal::Fit) => Ok(()),
        Some(refusal) => Err(refusal),
    }
}

/// The first record of a buffer, by its length field, and the bytes behind it; nothing where the buffer does not hold all of it. Whether it is a record
/// of the kind one wants is asked by `from_bytes` of that kind.
///
/// ```
/// use fourport::{split_record, Program, Query};
/// // the walk program's input: a program, and behind it a query
/// let input = [0, 3, 1, 0, 0, 0, 2, 1, 0x10];
/// let (program, rest) = split_record(&input).unwrap();
/// let (query, rest) = split_record(rest).unwrap();
/// assert!(Program::from_bytes(program).is_ok() && Query::from_bytes(query).is_ok() && rest.is_empty());
/// assert_eq!(split_record(&input[..4]), None);
/// assert_eq!(split_record(&[0]), None);
/// ```
pub fn split_record(bytes: &[u8]) -> Option<(&[u8], &[u8])> {
    let (record, rest) = layout::split_record(bytes);
    (record.len() == 2 + usize::from(layout::number_at(bytes, 0))).then_some((record, rest))
}

/// The record that a service wrote into an output of 32,768 bytes.
pub fn written(service: impl FnOnce(&mut [u8]) -> u32) -> Result<Vec<u8>, Refusal> {
    let mut out = vec![0; RECORD_LIMIT];
    Refusal::unless_done(service(&mut out))?;
    out.truncate(layout::record_at(&out).len());
    out.shrink_to_fit();
    Ok(out)
}
