//! The script: its entries, and how they stand in bytes (docs/REPLAY.md). Bytes that choose are kept as they are, so that
//! an entry can say what no case is given for.

/// The most samples that a report counts, and the longest buffer of a page.
const SAMPLES: u32 = 512;
const BUFFER: u32 = 4096;

/// Something that is written one after the other.
pub trait Field: Sized {
    fn put(&self, bytes: &mut Vec<u8>);

    /// Takes the field off the front, or answers none where the bytes end before it does or it counts too much.
    fn take(bytes: &mut &[u8]) -> Option<Self>;
}

/// A number in so many bytes.
macro_rules! number {
    ($($number:ty),*) => {$(
        impl Field for $number {
            fn put(&self, bytes: &mut Vec<u8>) {
                bytes.extend(self.to_le_bytes());
            }

            fn take(bytes: &mut &[u8]) -> Option<Self> {
                let (first, rest) = bytes.split_first_chunk()?;
                *bytes = rest;
                Some(<$number>::from_le_bytes(*first))
            }
        }
    )*};
}

number!(u8, u32, u64, f32);

/// Fields in a row.
macro_rules! record {
    ($(#[$doc:meta])* $record:ident { $($(#[$note:meta])* $field:ident: $sort:ty),* }) => {
        $(#[$doc])*
        #[derive(Clone, Debug, PartialEq)]
        pub struct $record {
            $($(#[$note])* pub $field: $sort,)*
        }

        impl Field for $record {
            fn put(&self, bytes: &mut Vec<u8>) {
                $(self.$field.put(bytes);)*
            }

            fn take(bytes: &mut &[u8]) -> Option<Self> {
                Some($record { $($field: Field::take(bytes)?),* })
            }
        }
    };
}

/// A count in one byte and so many rows: the bytes of a name, or the rows of a definition.
impl<T: Field> Field for Vec<T> {
    fn put(&self, bytes: &mut Vec<u8>) {
        u8::try_from(self.len()).expect("a count of one byte").put(bytes);
        self.iter().for_each(|row| row.put(bytes));
    }

    fn take(bytes: &mut &[u8]) -> Option<Self> {
        let count = u8::take(bytes)?;
        (0..count).map(|_| T::take(bytes)).collect()
    }
}

pub type Name = Vec<u8>;

record! {
    Glide {
        target: f32,
        seconds: f32,
        /// 0 hold, 1 linear, 2 sine, anything else exponential.
        shape: u8,
        curve: f32,
        /// 0 raw, anything else pitch.
        space: u8
    }
}

record! {
    NodeRow {
        kind: Name,
        ports: u8,
        required: u8,
        /// 1 for values plus 2 for glides.
        takes: u8,
        channels: u8,
        /// Its first port of each of these names, 255 for none.
        input: u8,
        level: u8,
        amp: u8
    }
}

record! { EdgeRow { from: u8, to: u8, port: u8 } }

record! { ParamRow { name: Name, node: u8 } }

record! {
    Definition { nodes: Vec<NodeRow>, edges: Vec<EdgeRow>, params: Vec<ParamRow>, output: u8 }
}

/// A block that is reported.
#[derive(Clone, Debug, PartialEq)]
pub struct Samples(pub Vec<f32>);

impl Field for Samples {
    fn put(&self, bytes: &mut Vec<u8>) {
        u32::try_from(self.0.len()).expect("a count of four bytes").put(bytes);
        self.0.iter().for_each(|sample| sample.put(bytes));
    }

    fn take(bytes: &mut &[u8]) -> Option<Self> {
        let count = at_most(SAMPLES, bytes)?;
        (0..count).map(|_| f32::take(bytes)).collect::<Option<_>>().map(Samples)
    }
}

/// A block that repeats one sample.
#[derive(Clone, Debug, PartialEq)]
pub struct Repeated {
    pub count: u32,
    pub sample: f32,
}

impl Field for Repeated {
    fn put(&self, bytes: &mut Vec<u8>) {
        self.count.put(bytes);
        self.sample.put(bytes);
    }

    fn take(bytes: &mut &[u8]) -> Option<Self> {
        Some(Repeated { count: at_most(SAMPLES, bytes)?, sample: f32::take(bytes)? })
    }
}

/// The length of a lent buffer.
#[derive(Clone, Copy, Debug, PartialEq)]
pub struct Length(pub u32);

impl Field for Length {
    fn put(&self, bytes: &mut Vec<u8>) {
        self.0.put(bytes);
    }

    fn take(bytes: &mut &[u8]) -> Option<Self> {
        at_most(BUFFER, bytes).map(Length)
    }
}

/// A number of four bytes that is not above `most`.
fn at_most(most: u32, bytes: &mut &[u8]) -> Option<u32> {
    u32::take(bytes).filter(|&n| n <= most)
}

/// The table of entries: sort, name, fields.
macro_rules! entries {
    ($($sort:literal $entry:ident { $($field:ident: $kind:ty),* })*) => {
        /// One entry.
        #[derive(Clone, Debug, PartialEq)]
        pub enum Call {
            $($entry { $($field: $kind),* },)*
        }

        impl Call {
            /// Appends the entry to a script.
            pub fn encode(&self, bytes: &mut Vec<u8>) {
                match self {
                    $(Call::$entry { $($field),* } => {
                        bytes.push($sort);
                        $($field.put(bytes);)*
                    })*
                }
            }

            /// Takes an entry off the front, or answers none where there is no whole one.
            fn take(bytes: &mut &[u8]) -> Option<Call> {
                match u8::take(bytes)? {
                    $($sort => Some(Call::$entry { $($field: Field::take(bytes)?),* }),)*
                    _ => None,
                }
            }
        }
    };
}

entries! {
    1 Make { rate: f32, block: u32, budgeted: u8, budget: u32, policy: u8, scope: u8 }
    2 SetCounters { clock: u64, voices: u64, noise: u32, node: u64 }
    3 AddNode { kind: Name, ports: u32, required: u64, takes: u8, channels: u8 }
    4 RemoveNode { node: u32 }
    5 Connect { from: u32, to: u32, port: u32 }
    6 Disconnect { to: u32, port: u32 }
    7 SetSink { node: u32 }
    8 Keep { slot: u8, definition: Definition }
    9 SpawnManagedPanned { slot: u8, bus: u32, pan: f32, rank: u32 }
    10 SpawnPanned { slot: u8, bus: u32, pan: f32, rank: u32 }
    11 SpawnManaged { slot: u8, bus: u32, rank: u32 }
    12 Spawn { slot: u8, bus: u32, rank: u32 }
    13 Free { voice: u64 }
    14 Clear {}
    15 Value { voice: u64, name: Name, value: f32 }
    16 SetGlide { voice: u64, name: Name, glide: Glide }
    17 Schedule { time: u64, voice: u64, action: u8, name: Name, glide: Glide }
    18 Report { node: u32, channels: u8, done: u8, samples: Samples }
    19 ReportRepeated { node: u32, channels: u8, done: u8, samples: Repeated }
    20 Prepare {}
    21 Render {}
    22 Level { voice: u64 }
    23 Position { voice: u64 }
    24 Voice { voice: u64 }
    25 VoiceAt { place: u32 }
    26 Voices {}
    27 Steals {}
    28 Edges {}
    29 Order {}
    30 Sources { node: u32 }
    31 Clock {}
    32 Page { length: Length }
    33 State {}
    34 MakeWithTable { rate: f32, block: u32, budgeted: u8, budget: u32, policy: u8, scope: u8 }
    35 RenderLent { length: u32, old: u8 }
    47 MakeConsole { rate: f32, block: u32, budgeted: u8, budget: u32, policy: u8, scope: u8, table: u8, keyboards: u32 }
    48 Wish { slot: u8, keyboard: u32, managed: u8, bus: u32, pan: f32, rank: u32 }
    49 Turn {}
    50 Waiting {}
    52 Seal { bus: u32, ports: u64, nodes: u64, edges: u64, def_nodes: u64, def_edges: u64 }
    53 Remark { words: Name }
}

/// The entry that begins at `at`, and where the next one begins; or `at` where there is no whole entry.
pub fn decode(script: &[u8], at: usize) -> Result<(Call, usize), usize> {
    let mut rest = &script[at..];
    let call = Call::take(&mut rest).ok_or(at)?;
    Ok((call, script.len() - rest.len()))
}
