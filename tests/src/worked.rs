//! What the plain desk's list says, worked out by going through it from its start.

use crate::call::{Call, Lengths, DELTAS};
use std::collections::BTreeMap;

/// Rows of one run: groups 1 to 64, delta T, areas 1 to 16.
pub const ROWS: usize = 81;

/// Balance groups; the schedules have a row for each.
pub const GROUPS: u64 = 64;

/// The row of delta T; an area's row is this one plus its number.
const DELTA: usize = 64;

/// The number of T among the deltas; the areas are 1 to 16.
const T: u64 = 0;

/// A submitted series.
#[derive(Clone, Debug)]
pub struct Version {
    /// Its number.
    pub number: u64,
    /// 1 check data, 2 settlement data, 3 settled, 4 correction settlement data, 5 correction settled.
    pub status: u64,
    /// Its row of values.
    pub row: usize,
}

/// An active point.
#[derive(Clone, Debug)]
pub struct Point {
    /// The day of its activation.
    pub since: u64,
    /// The kind of its series, 1 to 5.
    pub kind: u64,
    /// Its area; 0 for none.
    pub area: u64,
    /// An area, a group, or 0.
    pub partner: u64,
    /// Its versions, in the order of their submission.
    pub versions: Vec<Version>,
}

impl Point {
    /// The version with a number.
    pub fn version(&self, number: u64) -> Option<&Version> {
        self.versions.iter().find(|v| v.number == number)
    }

    /// The highest version, whatever its status.
    pub fn newest(&self) -> Option<&Version> {
        self.versions.iter().max_by_key(|v| v.number)
    }

    /// The highest version that has one of two statuses.
    fn highest(&self, statuses: [u64; 2]) -> Option<&Version> {
        let counted = self.versions.iter();
        let counted = counted.filter(|v| statuses.contains(&v.status));
        counted.max_by_key(|v| v.number)
    }

    /// The version of a run's own: status 2 or 3 for run 1, status 4 or 5 for run 2.
    pub fn own(&self, run: u64) -> Option<&Version> {
        self.highest(if run == 1 { [2, 3] } else { [4, 5] })
    }

    /// The version that a run selects, with its status: its own, and for run 2 without one what run 1 selects.
    pub fn selected(&self, run: u64) -> Option<&Version> {
        self.own(run).or(self.own(1))
    }
}

/// The month as the list has it.
#[derive(Debug)]
pub struct Month<'a> {
    /// Q.
    pub quarters: u64,
    /// F.
    pub first: u64,
    /// C.
    pub clearing: u64,
    /// K.
    pub correction: u64,
    /// The stores' lengths at the opening.
    pub lengths: Lengths,
    /// The desk's day.
    pub day: u64,
    /// The groups of the deltas in run 1 and in run 2: T, areas 1 to 16.
    pub groups: [[u64; DELTAS]; 2],
    /// The active points by their numbers.
    pub points: BTreeMap<u64, Point>,
    /// The submitted series in their order: the used rows of values.
    pub rows: Vec<&'a [u64]>,
    /// Whether run 1 and run 2 are closed.
    pub closed: [bool; 2],
    /// Whether run 1 and run 2 are issued.
    pub issued: [bool; 2],
    /// The rows of the log: day, point, run, new version.
    pub log: Vec<[u64; 4]>,
    /// The schedule that each group lodged last.
    pub lodged: BTreeMap<u64, &'a [u64]>,
}

impl<'a> Month<'a> {
    /// Goes through a list of accepted calls from its start; none where it is empty. The first call is an opening.
    pub fn of(list: impl IntoIterator<Item = &'a (Call, Lengths)>) -> Option<Month<'a>> {
        let mut list = list.into_iter();
        let (opening, lengths) = list.next()?;
        let mut month = Month::opened(opening, *lengths);
        for (call, _) in list {
            month.take(call);
        }
        Some(month)
    }

    fn opened(opening: &Call, lengths: Lengths) -> Month<'a> {
        let Call::Open {
            quarters,
            first,
            clearing,
            correction,
            groups,
        } = *opening
        else {
            panic!("a list begins with an opening");
        };
        Month {
            quarters,
            first,
            clearing,
            correction,
            lengths,
            day: 0,
            groups: [groups; 2],
            points: BTreeMap::new(),
            rows: Vec::new(),
            closed: [false; 2],
            issued: [false; 2],
            log: Vec::new(),
            lodged: BTreeMap::new(),
        }
    }

    /// One accepted call more.
    fn take(&mut self, call: &'a Call) {
        let before = self.own_versions(call);
        self.day = call.day().unwrap_or(self.day);
        match *call {
            Call::Activate {
                point,
                kind,
                area,
                partner,
                day,
            } => {
                let active = Point {
                    since: day,
                    kind,
                    area,
                    partner,
                    versions: Vec::new(),
                };
                self.points.insert(point, active);
            }
            Call::Deactivate { point, .. } => {
                self.points.remove(&point);
            }
            Call::Submit {
                point,
                version,
                day,
                ref series,
            } => {
                let submitted = Version {
                    number: version,
                    status: if day <= self.first { 2 } else { 1 },
                    row: self.rows.len(),
                };
                self.rows.push(series);
                self.active(point).versions.push(submitted);
            }
            Call::Notice {
                point,
                version,
                verdict: 1,
                day,
            } => {
                let status = if day <= self.clearing { 2 } else { 4 };
                let versions = &mut self.active(point).versions;
                let noticed = versions.iter_mut().find(|v| v.number == version);
                noticed.expect("a version").status = status;
            }
            Call::Assign { area, group, day } => self.assign(area, group, day),
            Call::Close { run, .. } => self.closed[run as usize - 1] = true,
            Call::Issue { run, .. } => self.issue(run),
            Call::Lodge {
                group, ref series, ..
            } => {
                self.lodged.insert(group, series);
            }
            Call::Notice { .. }
            | Call::Open { .. }
            | Call::Show { .. }
            | Call::Status { .. }
            | Call::Report { .. } => {}
        }
        let after = self.own_versions(call);
        for run in 1..=2 {
            let index = run as usize - 1;
            if after[index] != before[index] {
                let point = call.point().expect("a point");
                let version = after[index].expect("a version");
                self.log.push([self.day, point, run, version]);
            }
        }
    }

    fn active(&mut self, point: u64) -> &mut Point {
        self.points.get_mut(&point).expect("an active point")
    }

    /// Up to day C both runs have the group for the delta, after it run 2 alone.
    fn assign(&mut self, area: u64, group: u64, day: u64) {
        let [first, second] = &mut self.groups;
        second[area as usize] = group;
        if day <= self.clearing {
            first[area as usize] = group;
        }
    }

    /// Each selected version of run 1 gets 3, each own one of run 2 gets 5.
    fn issue(&mut self, run: u64) {
        self.issued[run as usize - 1] = true;
        for point in self.points.values_mut() {
            let Some(own) = point.own(run).map(|v| v.number) else {
                continue;
            };
            let versions = point.versions.iter_mut();
            for version in versions.filter(|v| v.number == own) {
                version.status = if run == 1 { 3 } else { 5 };
            }
        }
    }

    /// The numbers of the versions that are run 1's selection and run 2's own at the call's point.
    fn own_versions(&self, call: &Call) -> [Option<u64>; 2] {
        let point = call.point().and_then(|point| self.points.get(&point));
        [1, 2].map(|run| point?.own(run).map(|v| v.number))
    }

    /// The version with a number at a point.
    pub fn version(&self, point: u64, number: u64) -> Option<&Version> {
        self.points.get(&point)?.version(number)
    }

    /// The rows that a point adds its value to in a run, each with the sign, by the table of series. A delta is its own row
    /// and that of its delta group in the run.
    pub fn rows_of(&self, run: u64, point: &Point) -> Vec<(usize, i128)> {
        let groups = &self.groups[run as usize - 1];
        let group = |number: u64, sign| vec![(number as usize - 1, sign)];
        let delta = |number: u64, sign| {
            let own = DELTA + number as usize;
            let group = groups[number as usize] as usize - 1;
            vec![(own, sign), (group, sign)]
        };
        let Point { area, partner, .. } = *point;
        let sides = match point.kind {
            1 if partner == 0 => [delta(area, 1), vec![]],
            1 => [delta(area, 1), delta(partner, -1)],
            2 => [group(partner, 1), delta(area, -1)],
            3 => [delta(area, -1), delta(T, 1)],
            4 => [group(partner, 1), delta(T, -1)],
            5 => [delta(area, 1), delta(T, -1)],
            kind => panic!("kind {kind}"),
        };
        sides.concat()
    }

    /// The points with a selected version in a run, by their numbers rising, each with the version and so its status.
    pub fn selected(&self, run: u64) -> impl Iterator<Item = (u64, &Point, &Version)> {
        let points = self.points.iter();
        points.filter_map(move |(&number, point)| Some((number, point, point.selected(run)?)))
    }

    /// The figures of a run: row k, quarter q at k × Q + q - 1.
    pub fn figures(&self, run: u64) -> Vec<i128> {
        let quarters = self.quarters as usize;
        let mut figures = vec![0; ROWS * quarters];
        for (_, point, version) in self.selected(run) {
            for (row, sign) in self.rows_of(run, point) {
                let row = &mut figures[row * quarters..][..quarters];
                for (figure, &energy) in row.iter_mut().zip(self.rows[version.row]) {
                    *figure += sign * signed(energy);
                }
            }
        }
        figures
    }

    /// A group's schedule, 0 where it has lodged none.
    pub fn schedule(&self, group: u64) -> Vec<i128> {
        match self.lodged.get(&group) {
            Some(series) => series.iter().map(|&energy| signed(energy)).collect(),
            None => vec![0; self.quarters as usize],
        }
    }

    /// A group's surplus and shortfall for each quarter hour, by the figures of a run.
    pub fn deviations(&self, figures: &[i128], group: u64) -> Vec<[i128; 2]> {
        let row = &figures[(group - 1) as usize * self.quarters as usize..];
        let schedule = self.schedule(group);
        let quarters = schedule.iter().zip(row);
        let split = |(planned, figure): (&i128, &i128)| [planned - figure, figure - planned];
        quarters.map(|pair| split(pair).map(|d| d.max(0))).collect()
    }

    /// The sums of a group's surplus and shortfall over the month, by the figures of a run.
    pub fn report(&self, figures: &[i128], group: u64) -> [i128; 2] {
        let deviations = self.deviations(figures, group);
        [0, 1].map(|side: usize| deviations.iter().map(|quarter| quarter[side]).sum())
    }

    /// The outside exchange of a run, for each quarter hour.
    pub fn outside(&self, run: u64) -> Vec<i128> {
        let mut sums = vec![0; self.quarters as usize];
        for (_, point, version) in self.selected(run) {
            if point.kind == 1 && point.partner == 0 {
                for (sum, &energy) in sums.iter_mut().zip(self.rows[version.row]) {
                    *sum += signed(energy);
                }
            }
        }
        sums
    }
}

/// An energy, a word in two's complement, as a number.
pub fn signed(word: u64) -> i128 {
    i128::from(word as i64)
}
