//! The four kinds of numbers. Each is its own type, so that an inner vertex
//! can not stand where an outer one belongs.

macro_rules! number {
    ($(#[$doc:meta])* $name:ident) => {
        $(#[$doc])*
        #[derive(Clone, Copy, Debug, PartialEq, Eq, PartialOrd, Ord, Hash)]
        pub struct $name(pub u16);

        impl $name {
            /// The number as a place in a table.
            pub fn index(self) -> usize {
                usize::from(self.0)
            }

            /// The number of a place in a table. Places past 65534 give
            /// 65535, which is never the number of anything.
            pub fn at(index: usize) -> Self {
                $name(u16::try_from(index).unwrap_or(u16::MAX))
            }

            /// A number given from outside. One that does not fit gives
            /// 65535, which exists no more than it does.
            pub fn given(number: u64) -> Self {
                $name(u16::try_from(number).unwrap_or(u16::MAX))
            }
        }
    };
}

number!(
    /// A user.
    User
);
number!(
    /// A resource: a folder.
    Resource
);
number!(
    /// A vertex of the inner layer, the owner's.
    InnerVertex
);
number!(
    /// A vertex of the outer layer, the storage's.
    OuterVertex
);
