//! Small wrong changes of the model, each of which a comparison must see.

use std::cell::Cell;

macro_rules! slips {
    ($($name:ident: $text:literal,)*) => {
        #[derive(Clone, Copy, PartialEq, Eq, Debug)]
        pub enum Slip { None, $($name,)* }

        impl Slip {
            pub const ALL: &'static [Slip] = &[$(Slip::$name,)*];

            pub fn text(self) -> &'static str {
                match self {
                    Slip::None => "none",
                    $(Slip::$name => $text,)*
                }
            }
        }
    };
}

slips! {
    // ring sums
    CapacityWhole: "a capacity of R/g",
    GridNegative: "the grid's remainder left negative",
    GridByInterval: "the grid taken by the interval, not by the divisor",
    SkipFromFour: "a high-speed start skips two frames from microframe 4 on",
    FullStartOne: "a full-speed start adds 1",
    SlotOfFull: "a full-speed slot taken mod 32",
    SchinfoFloor: "SCHINFO with floor(8/i) terms",
    SchinfoFull: "SCHINFO at full speed 1",
    ListFloor: "frame-list step floor(interval/8)",
    PidOutTwo: "high-speed OUT of mult 2 is DATA1",
    MultZero: "mult 0 counts as 0 in HCCHAR",
    IntervalZero: "interval 0 counts as 2",
    NumberZero: "the number after 2^64 - 1 is 0",
    // words
    FaultOrder: "transaction before babble",
    ErrorAny: "every result but 0 is a packet error",
    InterruptFirst: "interrupt on the first packet",
    MaskIn: "the mask of IN without 7 and 8",
    IsoCountWide: "the isochronous count read 17 bits wide",
    // submission
    NumberSaved: "a request number saved on refusal 9",
    NumberSavedGate: "a request number saved on refusal 14",
    SumFirst: "10 before 9",
    ChannelFirst: "12 before 9",
    CapacityAll: "6 and 7 count completed packets too",
    AlwaysGrid: "always inserted by the grid",
    AlwaysCursor: "always inserted at the cursor",
    FirstCursorZero: "a first submission takes the grid from cursor 0",
    OneReading: "the start taken from the reading for the insertion",
    NoSecondGate: "the second gate not tested",
    GateKeepsCursor: "14 leaves the cursor",
    CursorShort: "the cursor one interval short",
    AddressStays: "every packet at the buffer's base",
    NoGuard: "the guard left out",
    StatusFirst: "status before address",
    CutSpends: "a cut call keeps the number it drew",
    PendingOnly: "8 counts pending requests only",
    AddressNone: "11 not tested",
    AddressStart: "11 tests only where the last packet starts",
    // poll
    UnpluggedIdle: "unplugged taken without a live channel",
    FirstReason: "a second fault does not replace the reason",
    HaltBeforeFault: "halted is looked at before the fault",
    HaltLost: "a fault that is not halted asks for no halt",
    BitSettlesAll: "the complete bit settles all requests",
    BitSettlesOne: "the complete bit settles one request and no more",
    BitLooks: "the complete bit settles only what is served",
    NoBitNone: "no bit settles nothing",
    OutRemaining: "an OUT length is planned minus remaining",
    InWraps: "an IN length below 0 becomes what remained",
    SettledAddress: "the settled slot's address word left",
    SettledStays: "settled slots left as they are",
    EndKeepsStart: "a session that ends leaves the start",
    EndKeepsReason: "a session that ends leaves the reason",
    EndKeepsRing: "a session that ends leaves the ring",
    EndReverse: "a session that ends reports the newest first",
    // reclaim, cancel, reset, recovery
    NoSecondLook: "reclaim does not look again",
    PollFirst: "reclaim polls before it looks",
    NotYetLost: "a pending number is unknown to reclaim",
    ResultsOnError: "results written where the outcome is an error",
    CancelDone: "a completed result is not cancelled",
    CancelAgain: "a cancel replaces the reason",
    CancelNoHalt: "a cancel asks for no halt",
    ResetPending: "reset with a reason",
    ResetStart: "reset zeroes the start too",
    RecoverIdle: "recovery leaves the ring where no channel was live",
    RecoverLast: "recovery drops the newest request",
    RecoverAfter: "recovery from the record after the call",
    // a session's bytes
    BehindTested: "bytes behind the entries in use are tested",
    BehindBlank: "bytes behind the entries in use become blank",
    RingFirst: "a short ring's 17 before 18 of the bytes",
    RecordFirst: "18 of the record before a short ring's 17",
    // planning
    ZeroNoPacket: "length 0 counts as no packet",
    ChunkWhole: "the chunk is 131,071",
    StageOffset: "every stage begins at the buffer's base",
    StagePlace: "every stage begins at descriptor 0",
    InUnrounded: "IN counts not rounded up",
    StatusAddress: "a status OUT uses the status address",
    StatusSame: "the status has the direction of the data",
    ControlData0: "control data starts at DATA0",
    LowControl: "control plans carry the low-speed flag of device 1",
    ToggleStuck: "the toggle does not follow from stage to stage",
    MovedOver: "a stage's length is initial minus remaining, not cut at what was asked for",
    ControlUnchecked: "19 not tested",
}

thread_local! {
    static SLIP: Cell<Slip> = const { Cell::new(Slip::None) };
}

pub fn set_slip(slip: Slip) {
    SLIP.with(|s| s.set(slip));
}

#[inline]
pub fn slip(slip: Slip) -> bool {
    SLIP.with(|s| s.get() == slip)
}
