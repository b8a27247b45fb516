//! Wrong codecs: the reference with one planted fault each. A comparison that misses one of them
//! compares too little.

use crate::codec::Codec;
use crate::reference::Engine;

macro_rules! faults {
    ($($(#[$about:meta])* $fault:ident,)*) => {
        /// What is wrong with a codec; each fault stands at one place of the reference.
        #[derive(Clone, Copy, Debug, PartialEq, Eq, PartialOrd, Ord)]
        #[repr(u8)]
        pub enum Fault {
            /// Nothing: the reference itself.
            None,
            $($(#[$about])* $fault,)*
        }

        impl Fault {
            /// In the order of their numbers.
            pub const ALL: &[Fault] = &[Fault::None, $(Fault::$fault,)*];
        }

        /// Every fault, with the codec that has it.
        pub fn all() -> Vec<(Fault, Box<dyn Codec>)> {
            vec![$((Fault::$fault, Box::new(Engine::<{ Fault::$fault as u8 }>)),)*]
        }
    };
}

faults! {
    /// Check: only the low octet of a kind is looked at.
    KindLowOctet,
    /// Check: a reference into the middle of a number passes where the octets there look like a
    /// variable number.
    ReferenceInsideRow,
    /// Check: a row of depth 33 passes.
    DepthOneMore,
    /// Check: a row of kind 9 passes where it is laid out as open octets.
    KindNinePasses,
    /// Check: open octets pass with a limit of 0.
    OpenMostZero,
    /// Check: a table under 4 octets is told as a row that is cut (20 for 1).
    SizeAsRow,
    /// Check: the kind is tested before the row's end (21 for 20).
    KindBeforeEnd,
    /// Check: a length below 4 is told as the row's end (20 for 22).
    ShortLengthAsEnd,
    /// Check: a length below 4 is told before an unknown kind (22 for 21).
    LengthBeforeKind,
    /// Check: the length that m asks for is worked out in 16 bits (23 for 22).
    LengthWraps,
    /// Check: an m out of bounds is told as a wrong length (22 for 23).
    BoundsInLength,
    /// Check: a count, a limit or m is tested before the row's length (23 for 22).
    NumberBeforeLength,
    /// Check: the reference of a run is tested before its count (24 for 23).
    ReferenceBeforeCount,
    /// Check: the references of a record are tested before its flags (24 for 23).
    ReferenceBeforeFlag,
    /// Check: the fields of a record are tested in order, each for its flag and its reference.
    FlagBesideReference,
    /// Check: a reference to a row of depth 32 is told before a wrong one behind it (26 for 24).
    DepthBeforeReference,
    /// Check: a choice of reserved branches is told as a wrong reference (24 for 25).
    NoBranchAsReference,
    /// Check: the place is 0 for every row.
    RowPlaceZero,
    /// Check: the place is the next row's.
    NextRowPlace,
    /// Check: the last row is told whose numbers or references break a rule, not the first.
    LastBrokenRow,
    /// Reading and writing: a table that breaks a rule is still told as 1 at 0.
    BrokenTableAsOne,
    /// Reading and writing: the place of a row is told in bits.
    RowPlaceInBits,
    /// Reading: a message above 65,535 octets is told before a table that breaks a rule.
    LongMessageBeforeTable,
    /// Reading: an empty message is told before a table that breaks a rule.
    EmptyMessageBeforeTable,
    /// Number: its bits are too few for a span that is a power of two.
    NumberWidth,
    /// Choice: its index takes a bit too many where m is a power of two.
    IndexWidth,
    /// Reading: a number above its span goes through.
    SpanNotTested,
    /// Reading: the room is tested before the span.
    RoomBeforeSpan,
    /// Reading: a length 80 05 is kept as 5.
    ShortInLongForm,
    /// Reading: a missing second octet of a length is told at that octet.
    SecondOctetPlace,
    /// Reading: open octets may be none.
    OpenEmptyRead,
    /// Reading: a length 80 00 of open octets is told as 0 (6 for 5).
    LeastBeforeForm,
    /// Reading: the room is tested before a length's limits (8 for 6).
    RoomBeforeLimits,
    /// Reading: each presence bit stands before its field.
    PresenceBesideField,
    /// Reading: the padding may hold anything.
    PaddingNotTested,
    /// Reading: the values read before a refusal stay.
    ValuesKept,
    /// Reading: octets after the last whole eight keep what they held.
    TailKept,
    /// Reading: a message of 65,536 octets goes through.
    MessageOneLonger,
    /// Writing: a value's distance from the least one is taken in 32 bits.
    NarrowDistance,
    /// Writing: a full output is told before a wrong value.
    RoomBeforeValue,
    /// Writing: open octets may be none.
    OpenEmptyWritten,
    /// Writing: values left over are ignored.
    LeftOverTaken,
    /// Writing: a root of 0 bits takes no octet.
    EmptyRootUncounted,
    /// Writing: more than 65,535 octets are written.
    OutputNotLimited,
    /// An LM by name: the subtype is tested before the version.
    SubtypeFirst,
    /// An LM by name: an element's contents may be empty.
    EmptyContents,
    /// User data: what follows it is not tested.
    RestNotTested,
    /// Elements: a home that does not exist is taken for another home.
    HomeNotTested,
    /// Opened message: too few bits are told before too wide a number.
    BitsBeforeWidth,
    /// Bench program: a frame of unknown kind is not counted.
    UnknownKindUncounted,
    /// Load: a refused load clears the state.
    RefusedLoadClears,
    /// Load: a refused load has copied the table's octets.
    RefusedLoadCopies,
    /// Load: a table that breaks a rule is loaded.
    LoadedUnchecked,
    /// Load: behind a table the rest of a longer one stays.
    LongerTableKept,
    /// Load: where no row starts the depths of the table before stay.
    DepthsKept,
    /// Load: every row gets the root's depth.
    RootDepthForAll,
    /// Load: the last row is not counted.
    RowsOneShort,
    /// Load: the count of rows is told as that of values.
    LoadTellsRows,
    /// Reading through a state: a message above 65,535 octets is told before no table (13 for 27).
    LongBeforeNoTable,
    /// Reading through a state: an empty message is told before no table (2 for 27).
    EmptyBeforeNoTable,
    /// Reading through a state: where no table is loaded the value slice stays as it was.
    NoTableValuesKept,
    /// Reading through a state: any outcome but 0 stands for a table.
    AnyOutcomePasses,
    /// A state made otherwise: a reference to a later row is followed.
    LaterRowRead,
    /// A state made otherwise: the depths of rows are not compared.
    DepthNotCompared,
    /// A state made otherwise: a row refers to one of the same depth.
    EqualDepthRead,
    /// A state made otherwise: a row is read that has no depth.
    DepthZeroRead,
    /// A state made otherwise: the root may be deeper than 32.
    RootOfAnyDepth,
    /// A state made otherwise: a row has to end inside the stored length.
    FitsStoredLength,
    /// A state made otherwise: a row has to have the length that stands in it.
    HeldLengthTested,
    /// A state made otherwise: only the low octet of a kind is looked at.
    HeldKindLowOctet,
    /// A state made otherwise: a fixed run of 1,025 items is read.
    HeldRunOneLonger,
    /// A state made otherwise: open octets are read with a limit of 0.
    HeldOpenMostZero,
    /// A state made otherwise: a field with flag 2 is always there.
    FlagTwoAsAlways,
    /// A state made otherwise: the room is tested before a row that may not be read (8 for 4).
    RoomBeforeUnreadable,
    /// A state made otherwise: the row of a counted run is tested after its length.
    RunRowAfterLength,
    /// A state made otherwise: a run of none is read, whatever its row is.
    EmptyRunRead,
    /// A state made otherwise: a counted run is refused at its first bit where its row is one that is read
    /// but refers to another that may not be.
    RunRowOpened,
    /// A state made otherwise: the row of an absent field is not tested.
    AbsentRowNotTested,
    /// A state made otherwise: the rows of a record are tested one by one, as its fields are read.
    FieldRowsInTurn,
    /// A state made otherwise: the rows of all branches are tested before a choice's index.
    BranchRowsFirst,
    /// Capture program: a file of nanoseconds is read.
    NanosecondsRead,
    /// Capture program: a file with another version in its header is not read.
    VersionTested,
    /// Capture program: only the low octet of the link type is looked at.
    LinkTypeLowOctet,
    /// Capture program: only the low two octets of the link type are looked at.
    LinkTypeLowTwoOctets,
    /// Capture program: a file without an octet has no records, and no stop.
    EmptyFileRead,
    /// Capture program: a record is refused that keeps more than the file's header says.
    SnapLengthTested,
    /// Capture program: a record of 2,049 octets is read.
    KeptOneMore,
    /// Capture program: only the low two octets of the kept length are looked at.
    KeptLowTwoOctets,
    /// Capture program: the file's end is told before too great a kept length (32 for 31).
    EndBeforeKept,
    /// Capture program: too great a kept length is told in a record header that is not whole (31 for 32).
    CutHeaderAsMuchKept,
    /// Capture program: a record header that is not whole is ignored.
    CutHeaderIgnored,
    /// Capture program: a record is told as cut that the file ends inside.
    CutBeforeEnd,
    /// Capture program: a record is told as cut whose kept length is above the original one.
    KeptAboveOriginalCut,
    /// Capture program: only the low two octets of the original length are looked at.
    OriginalLowTwoOctets,
    /// Capture program: an original length of 2^31 or more is taken as below 0.
    OriginalSigned,
    /// Capture program: the line of a cut LM is printed too.
    CutAfterLine,
    /// Capture program: a cut record is told only if it holds an LM.
    CutOfLmsAlone,
    /// Capture program: a cut record of fewer than 14 octets is not told.
    ShortCutUntold,
    /// Capture program: a cut record is not counted.
    CutUncounted,
    /// Capture program: a record of fewer than 14 octets is not counted.
    ShortUncounted,
    /// Capture program: a record in which the run stops is counted.
    StoppedCounted,
    /// Capture program: the EtherType is taken in the file's order.
    EtherTypeInFileOrder,
    /// Capture program: only the first octet of the EtherType is looked at.
    EtherTypeHighOctet,
    /// Capture program: a VLAN tag before the EtherType is skipped.
    TagSkipped,
    /// Capture program: zeros at the end of a frame of 60 octets are left out.
    PaddingStripped,
    /// Capture program: an empty LM prints nothing.
    EmptyLmUntold,
    /// Capture program: there is room for twice the values.
    CaptureRoomDoubled,
    /// Capture program: records are numbered from 1.
    NumbersFromOne,
    /// Capture program: only records that print a line are numbered.
    NumbersOfLines,
    /// Capture program: a number stands before `stop`.
    StopNumbered,
    /// Capture program: the place of a stop is counted from the first record.
    OffsetsFromRecords,
    /// Capture program: the place of a stop is that after the record's header.
    OffsetBehindHeader,
    /// Forwarding: a message of 65,536 octets goes on.
    ForwardedOneLonger,
    /// Forwarding: the version is tested before too long a message (10 for 13).
    VersionBeforeLength,
    /// Forwarding: the version is tested before the message's end (10 for 2).
    VersionBeforeEnd,
    /// Forwarding: another version is told at the message's first bit.
    VersionAtStart,
    /// Forwarding: the subtype is tested before the version (11 for 10).
    SubtypeBeforeVersion,
    /// Forwarding: the hop count is tested before the subtype (40 for 11).
    HopsBeforeSubtype,
    /// Forwarding: a hop count of 0 goes on, as 3.
    HopsWrap,
    /// Forwarding: a hop count of 0 is told at the octet that it ends.
    HopsAtOctet,
    /// Forwarding: the list is searched before the hop count is tested (41 for 40).
    SeenBeforeHops,
    /// Forwarding: the message ID is the three octets that it begins in.
    IdOfThreeOctets,
    /// Forwarding: a seen ID is told at the message's first bit.
    IdAtStart,
    /// Forwarding: only the low 22 bits of a stored ID are looked at.
    StoredIdCut,
    /// Forwarding: a record is live that is just 5,000 ms old.
    LiveAtLimit,
    /// Forwarding: a record's age is taken modulo 2^32.
    AgeWraps,
    /// Forwarding: a record is live that is not in use.
    UnusedLive,
    /// Forwarding: the list is searched no further than to the first record that is not live.
    SearchEndsAtFree,
    /// Forwarding: a seen ID renews the time of its record.
    SeenRenews,
    /// Forwarding: no free record is told before a seen ID (42 for 41).
    FullBeforeSeen,
    /// Forwarding: the output's length is tested before the list is searched (8 for 41).
    RoomBeforeSeen,
    /// Forwarding: the output's length is tested before a free record is looked for (8 for 42).
    RoomBeforeFree,
    /// Forwarding: the ID is stored before the output's length is tested.
    StoredBeforeRoom,
    /// Forwarding: an output that is just as long as the message is too short.
    OutputOneLonger,
    /// Forwarding: the last record that is not live is taken, not the first.
    LastFreeTaken,
    /// Forwarding: a record that is not live is preferred if it has the same ID.
    SameIdPreferred,
    /// Forwarding: an empty list forwards, and stores nothing.
    EmptyListForwards,
    /// Forwarding: the hop count is kept.
    HopsKept,
    /// Forwarding: the hop count is two lower.
    HopsTwoLower,
    /// Forwarding: the flag for extensions is cleared.
    ExtensionsCleared,
    /// Forwarding: a message with a reserved T-Header is refused.
    HeaderBehindTested,
    /// Forwarding: the rest of the output is left.
    OutputRestKept,
    /// Forwarding: the output is zeroed to 65,535 octets alone.
    OutputZeroedInPart,
    /// Forwarding: the output is left where the message is refused.
    RefusedOutputKept,
}

impl Fault {
    /// Whether it is one of the capture program.
    pub fn is_of_captures(self) -> bool {
        (Fault::NanosecondsRead..Fault::ForwardedOneLonger).contains(&self)
    }

    /// Whether it is one of the forwarding step, which are the last.
    pub fn is_of_forwarding(self) -> bool {
        self >= Fault::ForwardedOneLonger
    }
}
