//! Iterators over parts that stand behind one another in a record, with their count known.

/// A type that goes over so many parts; `split` takes the first off the bytes.
macro_rules! listed {
    ($(#[$doc:meta])* $name:ident, $count:ty, $item:ty, $split:expr) => {
        $(#[$doc])*
        #[derive(Clone, Copy, Debug)]
        pub struct $name<'a> {
            left: $count,
            bytes: &'a [u8],
        }

        impl<'a> $name<'a> {
            pub(crate) fn new(left: $count, bytes: &'a [u8]) -> $name<'a> {
                $name { left, bytes }
            }
        }

        impl<'a> Iterator for $name<'a> {
            type Item = $item;

            fn next(&mut self) -> Option<$item> {
                self.left = self.left.checked_sub(1)?;
                let (item, rest) = $split(self.bytes);
                self.bytes = rest;
                Some(item)
            }

            fn size_hint(&self) -> (usize, Option<usize>) {
                (usize::from(self.left), Some(usize::from(self.left)))
            }
        }

        impl ExactSizeIterator for $name<'_> {}
        impl std::iter::FusedIterator for $name<'_> {}
    };
}

pub(crate) use listed;
