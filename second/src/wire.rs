//! Numbers and records as bytes, as the page of calls (CALLS.md) lays them out: little endian, one field after another.

/// The bytes of a call that have not been read yet.
pub struct Reader<'a> {
    left: &'a [u8],
}

impl<'a> Reader<'a> {
    pub fn new(bytes: &'a [u8]) -> Self {
        Reader { left: bytes }
    }

    /// The next `count` bytes, or nothing if there are fewer.
    pub fn take(&mut self, count: usize) -> Option<&'a [u8]> {
        if count > self.left.len() {
            return None;
        }
        let (taken, left) = self.left.split_at(count);
        self.left = left;
        Some(taken)
    }

    pub fn rest(&mut self) -> &'a [u8] {
        std::mem::take(&mut self.left)
    }
}

/// The name of a field of an answer and how many bytes it has.
pub type Place = (String, usize);

/// Something that stands in a line.
pub trait Wire: Sized {
    fn read(from: &mut Reader) -> Option<Self>;
    fn write(&self, out: &mut Vec<u8>);
    /// Adds every number in it, so that a difference can be named.
    fn places(name: &str, out: &mut Vec<Place>);
}

/// Reads the value that the bytes begin with; one of zeros where they are too few.
pub fn begin<T: Wire + Default>(bytes: &[u8]) -> T {
    T::read(&mut Reader::new(bytes)).unwrap_or_default()
}

/// Reads a value that takes all of the bytes, no fewer and no more.
pub fn whole<T: Wire>(bytes: &[u8]) -> Option<T> {
    let mut reader = Reader::new(bytes);
    let value = T::read(&mut reader)?;
    if reader.left.is_empty() {
        Some(value)
    } else {
        None
    }
}

pub fn bytes_of<T: Wire>(value: &T) -> Vec<u8> {
    let mut out = Vec::new();
    value.write(&mut out);
    out
}

macro_rules! wire_number {
    ($($type:ty),*) => { $(
        impl Wire for $type {
            fn read(from: &mut Reader) -> Option<Self> {
                let bytes = from.take(std::mem::size_of::<$type>())?;
                Some(<$type>::from_le_bytes(bytes.try_into().ok()?))
            }
            fn write(&self, out: &mut Vec<u8>) {
                out.extend_from_slice(&self.to_le_bytes());
            }
            fn places(name: &str, out: &mut Vec<Place>) {
                out.push((name.to_string(), std::mem::size_of::<$type>()));
            }
        }
    )* };
}

// Signed ones are in two's complement.
wire_number!(u8, u16, u32, u64, i32);

/// Four entries, entry 0 first.
impl<T: Wire> Wire for [T; 4] {
    fn read(from: &mut Reader) -> Option<Self> {
        Some([T::read(from)?, T::read(from)?, T::read(from)?, T::read(from)?])
    }
    fn write(&self, out: &mut Vec<u8>) {
        for entry in self {
            entry.write(out);
        }
    }
    fn places(name: &str, out: &mut Vec<Place>) {
        for d in 0..4 {
            T::places(&format!("{name}[{d}]"), out);
        }
    }
}

/// Arguments that follow one another.
macro_rules! wire_tuple {
    ($($part:ident . $index:tt),*) => {
        impl<$($part: Wire),*> Wire for ($($part,)*) {
            fn read(_from: &mut Reader) -> Option<Self> {
                Some(($($part::read(_from)?,)*))
            }
            fn write(&self, _out: &mut Vec<u8>) {
                $( self.$index.write(_out); )*
            }
            fn places(_name: &str, _out: &mut Vec<Place>) {
                $( $part::places(&format!("{_name}{}", $index), _out); )*
            }
        }
    };
}

wire_tuple!();
wire_tuple!(A.0, B.1);
wire_tuple!(A.0, B.1, C.2);
wire_tuple!(A.0, B.1, C.2, D.3);
wire_tuple!(A.0, B.1, C.2, D.3, E.4);

/// Defines a record whose fields stand in the line in the order in which they are written here.
macro_rules! wire_struct {
    ($(#[$note:meta])* $name:ident { $($field:ident: $type:ty),* $(,)? }) => {
        $(#[$note])*
        #[derive(Clone, Debug, Default, PartialEq, Eq)]
        pub struct $name { $(pub $field: $type),* }

        impl $crate::wire::Wire for $name {
            fn read(from: &mut $crate::wire::Reader) -> Option<Self> {
                Some($name { $($field: <$type as $crate::wire::Wire>::read(from)?),* })
            }
            fn write(&self, out: &mut Vec<u8>) {
                $( $crate::wire::Wire::write(&self.$field, out); )*
            }
            fn places(name: &str, out: &mut Vec<$crate::wire::Place>) {
                $(
                    let field = $crate::wire::inside(name, stringify!($field));
                    <$type as $crate::wire::Wire>::places(&field, out);
                )*
            }
        }
    };
}
pub(crate) use wire_struct;

/// The name of a field within something that has a name itself.
pub fn inside(outer: &str, field: &str) -> String {
    if outer.is_empty() {
        field.to_string()
    } else {
        format!("{outer}.{field}")
    }
}

/// All bytes that are left of the line, also none ("rest").
#[derive(Clone, Debug, Default, PartialEq, Eq)]
pub struct Rest(pub Vec<u8>);

impl Wire for Rest {
    fn read(from: &mut Reader) -> Option<Self> {
        Some(Rest(from.rest().to_vec()))
    }
    fn write(&self, out: &mut Vec<u8>) {
        out.extend_from_slice(&self.0);
    }
    fn places(name: &str, out: &mut Vec<Place>) {
        out.push((name.to_string(), usize::MAX));
    }
}

/// CALLS: "a memory that the call may change" has at most this many bytes.
pub const MEMORY_LIMIT: usize = 65_536;

/// The rest of the line, where it is a memory that the call may change.
#[derive(Clone, Debug, Default, PartialEq, Eq)]
pub struct Memory(pub Vec<u8>);

impl Wire for Memory {
    fn read(from: &mut Reader) -> Option<Self> {
        let bytes = from.rest();
        if bytes.len() > MEMORY_LIMIT {
            return None;
        }
        Some(Memory(bytes.to_vec()))
    }
    fn write(&self, out: &mut Vec<u8>) {
        out.extend_from_slice(&self.0);
    }
    fn places(name: &str, out: &mut Vec<Place>) {
        Rest::places(name, out);
    }
}

/// CALLS: "n u32, n source bytes".
#[derive(Clone, Debug, Default, PartialEq, Eq)]
pub struct Counted(pub Vec<u8>);

impl Wire for Counted {
    fn read(from: &mut Reader) -> Option<Self> {
        let count = u32::read(from)?;
        Some(Counted(from.take(count as usize)?.to_vec()))
    }
    fn write(&self, out: &mut Vec<u8>) {
        (self.0.len() as u32).write(out);
        out.extend_from_slice(&self.0);
    }
    fn places(name: &str, out: &mut Vec<Place>) {
        u32::places(&inside(name, "count"), out);
        Rest::places(name, out);
    }
}
