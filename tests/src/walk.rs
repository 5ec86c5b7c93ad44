//! One walk over a version table that may hold anything: what it finds of a point and of a version, how many records it reads,
//! and whether they are within their limits.

/// How many records a version table has.
pub const RECORDS: usize = 512;

/// How many numbers `drive_walk` gives for a walk: those of `Walk::numbers`.
pub const NUMBERS: usize = 10;

/// A record of a version table.
#[derive(Clone, Copy, Debug, PartialEq, Eq)]
pub struct Record {
    /// The number of the version.
    pub version: u64,
    /// The point.
    pub point: u16,
    /// The row of values.
    pub row: u16,
    /// The status, from 1 to 5.
    pub status: u64,
}

impl Record {
    /// The record of four numbers.
    pub fn of(version: u64, point: u16, row: u16, status: u64) -> Record {
        Record {
            version,
            point,
            row,
            status,
        }
    }

    /// Its numbers, as `drive_walk` takes them.
    pub fn numbers(&self) -> [u64; 4] {
        [
            self.version,
            self.point.into(),
            self.row.into(),
            self.status,
        ]
    }

    /// Whether its point, its version and its row are within their limits, where the values have so many rows.
    pub fn fits(&self, rows: u64) -> bool {
        (1..=256).contains(&self.point)
            && (1..=99_999_999_999_999).contains(&self.version)
            && u64::from(self.row) < rows
    }
}

/// A record that was found: its index and what it holds.
pub type Found = Option<(usize, Record)>;

/// What a walk finds.
#[derive(Clone, Copy, Debug, PartialEq, Eq)]
pub struct Walk {
    /// The version asked for.
    pub held: Found,
    /// The highest version of the point, 0 without one.
    pub highest: u64,
    /// Run 1's selection: the point's highest version of status 2 or 3.
    pub first: Found,
    /// Run 2's own: the point's highest version of status 4 or 5.
    pub second: Found,
    /// How many records were read.
    pub read: u64,
}

impl Walk {
    /// 1 or 0 for the version asked for, and its index; the highest; status, version and index of both selections; the records
    /// read. What was not found is 0.
    pub fn numbers(&self) -> [u64; NUMBERS] {
        let at = self.held.map_or(0, |(at, _)| at as u64);
        let selected = |found: Found| match found {
            Some((at, record)) => [record.status, record.version, at as u64],
            None => [0; 3],
        };
        let ([s, v, i], [t, w, j]) = (selected(self.first), selected(self.second));
        let held = self.held.is_some().into();
        [held, at, self.highest, s, v, i, t, w, j, self.read]
    }
}

/// The records that are held: so many, all where the table has not so many.
pub fn held(table: &[Record], count: u64) -> &[Record] {
    &table[..count.min(RECORDS as u64) as usize]
}

/// The walk over the records that are held, for a version of a point. Of those with one number the first answers.
pub fn walk(table: &[Record], count: u64, point: u64, version: u64) -> Walk {
    let held = held(table, count);
    let indexed = held.iter().copied().enumerate();
    let of_point: Vec<(usize, Record)> = indexed
        .filter(|(_, record)| u64::from(record.point) == point)
        .collect();
    let highest_of = |statuses: &[u64]| {
        let counted = |(_, record): &&(usize, Record)| statuses.contains(&record.status);
        let numbers = of_point.iter().filter(counted).map(|(_, r)| r.version);
        let highest = numbers.max()?;
        let mut all = of_point.iter().filter(counted);
        all.find(|(_, record)| record.version == highest).copied()
    };
    let mut all = of_point.iter();
    Walk {
        held: all.find(|(_, r)| r.version == version).copied(),
        highest: of_point.iter().map(|(_, r)| r.version).max().unwrap_or(0),
        first: highest_of(&[2, 3]),
        second: highest_of(&[4, 5]),
        read: held.len() as u64,
    }
}

/// Whether each record that is held is within its limits.
pub fn fit(table: &[Record], count: u64, rows: u64) -> bool {
    held(table, count).iter().all(|record| record.fits(rows))
}
