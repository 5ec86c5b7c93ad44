//! The causes for which a desk refuses a call, and the ranges that fields are tested against.

/// A cause of the table, with its number.
#[derive(Clone, Copy)]
pub enum Cause {
    /// The desk is not open, or its state is outside the limits.
    NotOpen = 1,
    /// A store in another length than at the opening.
    WrongLength = 2,
    /// A field outside its range, a wrong series length, an energy too large.
    BadField = 3,
    /// An opening with Q, deadlines, groups or store lengths that are not allowed.
    BadOpening = 4,
    /// A day below the desk's.
    PastDay = 5,
    /// An opening of an open desk.
    OpenAgain = 6,
    /// A day after K.
    AfterCorrection = 11,
    /// The point is not active.
    NotActive = 12,
    /// A submission before the second day after the activation.
    TooEarly = 13,
    /// The version is there.
    VersionPresent = 14,
    /// The point has a higher version.
    VersionBelow = 15,
    /// No row is left for a series.
    NoRow = 16,
    /// A log row is due and none is left.
    NoLogRow = 17,
    /// The point is active.
    PointActive = 21,
    /// An active point has the same series.
    SameSeries = 22,
    /// The point has a version.
    HasVersion = 23,
    /// There is no such version.
    NoVersion = 24,
    /// The version is not check data.
    NotCheckData = 25,
    /// An assignment after K, or a lodging after C.
    TooLate = 26,
    /// A close on the run's deadline or before it.
    CloseTooEarly = 27,
    /// The run is closed.
    AlreadyClosed = 28,
    /// A close of run 2 while run 1 is not closed.
    FirstRunOpen = 29,
    /// A notice on a version below the point's highest.
    NoticeBelow = 37,
    /// An issue of a run that is not closed.
    NotClosed = 38,
    /// An issue of a run that is issued.
    AlreadyIssued = 39,
}

/// The largest number of a cause.
pub const LAST_CAUSE: usize = Cause::AlreadyIssued as usize;

/// A refusal where the test holds.
pub fn refuse_if(test: bool, cause: Cause) -> Result<(), Cause> {
    if test {
        Err(cause)
    } else {
        Ok(())
    }
}

/// Most quarter hours of a month.
pub const QUARTERS: u64 = 2_980;

/// The last day.
pub const LAST_DAY: u64 = 400;

/// Points.
pub const POINTS: usize = 256;

/// Most versions that a desk holds.
pub const VERSIONS: usize = 512;

/// Numbers of a row of the log.
pub const LOG_ROW: usize = 4;

/// The largest energy.
const ENERGY: u64 = 1_000_000_000_000;

/// Whether a number is that of a point.
pub fn is_point(point: u64) -> bool {
    (1..=POINTS as u64).contains(&point)
}

/// Whether a number is that of a version.
pub fn is_version(number: u64) -> bool {
    (1..=99_999_999_999_999).contains(&number)
}

/// Whether the deadlines F, C and K are allowed.
pub fn are_deadlines([first, clearing, correction]: [u64; 3]) -> bool {
    1 <= first && first < clearing && clearing < correction && correction <= 399
}

/// Whether every energy, a word in two's complement, is from -10^12 to 10^12. All are looked at, since the loop is
/// vectorised then.
pub fn are_energies(series: &[u64]) -> bool {
    let fits = |word: u64| word.wrapping_add(ENERGY) <= 2 * ENERGY;
    series.iter().fold(true, |fit, &word| fit & fits(word))
}
