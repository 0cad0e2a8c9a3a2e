//! The table "When a call declines", refusals 16 to 23 of document 02, and the tests that slips 4 and 8 have refusal 12 name.

/// Why a call declined. Its number and detail are those of the documents.
#[derive(Clone, Copy, Debug, PartialEq, Eq)]
pub enum Refusal {
    /// The image does not have 40 to 8,192 words, or not the state's capacity + 24.
    ImageSize,
    /// The state is not sound, or the cursor is out of bounds.
    Unsound,
    /// Kind, length, force frequency or fetch position out of range.
    Argument,
    /// The selector or the selected superline copy is wrong.
    Superline,
    NotLive,
    /// Copy, complete: the record is not open. Release: it is not committed.
    WrongStage,
    /// Copy reaches behind the payload.
    BeyondPayload,
    /// No LSN (reserve) or no epoch (recover) is left.
    NumbersSpent,
    TableFull,
    NoRoom,
    /// Force: `lsn` is open. Release all: `lsn` is not committed.
    NotReady {
        lsn: u64,
    },
    /// The record expected under `lsn` fails `test`, and passes those before it.
    Damaged {
        lsn: u64,
        test: RecordTest,
    },
    TooMany {
        lsn: u64,
    },
    OutputShort,
    OpBufferShort {
        needed: u64,
    },
    /// The index is not below the number of listed records.
    NoRecord,
    /// A line of a listing is not in its form, or missing, or anything is behind the end line.
    BadLine,
    /// An LSN in a listing is not the next one.
    NotNext,
    /// Of three modules' copies fewer than two are readable.
    TooFewCopies,
    /// The committed replacement `lsn`, the lowest such one, rests on the record to be released.
    Held {
        lsn: u64,
    },
    /// The op of this number, counted from 0, is not one that the call takes.
    BadOp {
        number: u64,
    },
    /// More than 4,096 crashes.
    TooManyCrashes,
    /// The number is not below that of the crashes.
    NoCrash,
}

impl Refusal {
    pub fn number(self) -> u64 {
        match self {
            Refusal::ImageSize => 1,
            Refusal::Unsound => 2,
            Refusal::Argument => 3,
            Refusal::Superline => 4,
            Refusal::NotLive => 5,
            Refusal::WrongStage => 6,
            Refusal::BeyondPayload => 7,
            Refusal::NumbersSpent => 8,
            Refusal::TableFull => 9,
            Refusal::NoRoom => 10,
            Refusal::NotReady { .. } => 11,
            Refusal::Damaged { .. } => 12,
            Refusal::TooMany { .. } => 13,
            Refusal::OutputShort => 14,
            Refusal::OpBufferShort { .. } => 15,
            Refusal::NoRecord => 16,
            Refusal::BadLine => 17,
            Refusal::NotNext => 18,
            Refusal::TooFewCopies => 19,
            Refusal::Held { .. } => 20,
            Refusal::BadOp { .. } => 21,
            Refusal::TooManyCrashes => 22,
            Refusal::NoCrash => 23,
        }
    }

    pub fn detail(self) -> u64 {
        match self {
            Refusal::NotReady { lsn }
            | Refusal::Damaged { lsn, .. }
            | Refusal::TooMany { lsn }
            | Refusal::Held { lsn } => lsn,
            Refusal::OpBufferShort { needed } => needed,
            Refusal::BadOp { number } => number,
            _ => 0,
        }
    }

    /// The test that refusal 12 names.
    pub fn record_test(self) -> Option<RecordTest> {
        match self {
            Refusal::Damaged { test, .. } => Some(test),
            _ => None,
        }
    }
}

/// The tests of a marked record, in their order.
#[derive(Clone, Copy, Debug, PartialEq, Eq, PartialOrd, Ord)]
pub enum RecordTest {
    Mark,
    Kind,
    Length,
    Fit,
    Lsn,
    Check,
    Epoch,
}

impl RecordTest {
    pub const ALL: [RecordTest; 7] = [
        RecordTest::Mark,
        RecordTest::Kind,
        RecordTest::Length,
        RecordTest::Fit,
        RecordTest::Lsn,
        RecordTest::Check,
        RecordTest::Epoch,
    ];

    /// Counted from 1.
    pub fn number(self) -> u64 {
        self as u64 + 1
    }

    pub fn of_word(word: &str) -> Option<RecordTest> {
        RecordTest::ALL.into_iter().find(|test| test.word() == word)
    }

    pub fn word(self) -> &'static str {
        ["mark", "kind", "length", "fit", "LSN", "check", "epoch"][self as usize]
    }
}

/// `Err(refusal)` unless `condition` holds.
pub fn require(condition: bool, refusal: Refusal) -> Result<(), Refusal> {
    if condition {
        Ok(())
    } else {
        Err(refusal)
    }
}
