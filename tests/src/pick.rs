//! The choice of calls to an open desk: mostly such as it accepts, and some for each refusal.

use crate::acts::{state, CLOSED, ISSUED};
use crate::call::{Call, Lengths};
use crate::generator::Random;
use crate::groups::{deltas, is_apart};
use crate::months::{any_call, changed, Plan, Size};
use crate::worked::{Month, Point, Version, GROUPS};

/// Largest energy.
pub(crate) const LARGEST: i64 = 1_000_000_000_000;

/// A choice of calls to an open desk.
pub(crate) struct Pick<'a> {
    pub(crate) random: &'a mut Random,
    pub(crate) plan: &'a Plan,
    pub(crate) month: &'a Month<'a>,
    /// The day that the plan has come to.
    pub(crate) planned: u64,
}

impl<'a> Pick<'a> {
    /// A number below `end`, from which the few first choose something unusual; below more in a long month, that it
    /// reaches its end.
    fn among(&mut self, end: usize) -> usize {
        let long = matches!(self.plan.size, Size::Versions | Size::Points);
        self.random.below(if long { 12 * end } else { end })
    }

    /// A call, with the lengths lent to it.
    pub(crate) fn call(&mut self) -> (Call, Lengths) {
        let mut call = self.right_call();
        match self.among(60) {
            0 | 1 => call = changed(self.random, &call),
            2 => call = any_call(self.random, self.month.quarters),
            _ => {}
        }
        let lent = self.lent(&call);
        (call, lent)
    }

    fn right_call(&mut self) -> Call {
        let weights = match self.plan.size {
            Size::Versions if self.month.points.len() >= 20 => {
                [1, 1, 1, 240, 6, 2, 2, 2, 2, 2, 2, 2]
            }
            Size::Versions => [1, 90, 1, 8, 1, 1, 1, 1, 1, 1, 1, 1],
            Size::Points if self.month.points.len() < 256 && self.planned == 0 => {
                [1, 300, 1, 2, 1, 1, 1, 1, 1, 1, 1, 1]
            }
            Size::Apart(_) => self.apart_weights(),
            _ if self.due().is_some() => [1, 1, 1, 6, 24, 2, 1, 1, 10, 1, 1, 3],
            _ if self.month.points.len() < 3 => [1, 40, 2, 12, 2, 4, 2, 2, 4, 4, 2, 4],
            _ if self.is_corrected() => match self.to_issue()[..] {
                [] => [2, 4, 3, 44, 44, 8, 7, 8, 7, 3, 7, 7],
                _ => [2, 4, 3, 34, 34, 8, 7, 8, 7, 3, 7, 36],
            },
            _ if self.month.closed[0] => [2, 4, 4, 10, 10, 5, 6, 7, 8, 6, 7, 24],
            _ => [2, 9, 8, 40, 28, 9, 7, 8, 8, 12, 9, 8],
        };
        let mut choice = self.random.below(weights.iter().sum());
        let mut number = 0;
        while choice >= weights[number] {
            choice -= weights[number];
            number += 1;
        }
        let choose = [
            Pick::open,
            Pick::activate,
            Pick::deactivate,
            Pick::submit,
            Pick::notice,
            Pick::assign,
            Pick::show,
            Pick::status,
            Pick::close,
            Pick::lodge,
            Pick::report,
            Pick::issue,
        ];
        choose[number](self)
    }

    /// Of a month in which deltas get another group in run 2: many points early, and after C assignments, submissions and
    /// notices.
    fn apart_weights(&self) -> [usize; 12] {
        let today = self.today();
        if self.month.points.len() < 6 {
            [1, 60, 1, 6, 1, 2, 1, 1, 1, 2, 1, 1]
        } else if today <= self.month.clearing {
            [1, 6, 2, 40, 12, 8, 3, 3, 3, 4, 3, 3]
        } else if today <= self.month.correction {
            [1, 2, 2, 46, 52, 30, 7, 3, 7, 4, 6, 8]
        } else {
            [2, 4, 3, 6, 6, 20, 6, 5, 14, 4, 6, 16]
        }
    }

    /// A show, a report, a lodging or a status, with the lengths lent to it.
    pub(crate) fn asked(&mut self) -> (Call, Lengths) {
        let asked = [
            Pick::show,
            Pick::report,
            Pick::report,
            Pick::lodge,
            Pick::status,
        ];
        let call = self.random.of(&asked)(self);
        let lent = self.lent(&call);
        (call, lent)
    }

    /// The opening's lengths for stores that the call takes, seldom another; any for the others.
    fn lent(&mut self, call: &Call) -> Lengths {
        let (takes, right) = (call.takes(), self.month.lengths.each());
        let (mut lent, most) = (right, self.plan.places.each());
        let others = self.random.once_in(2);
        for store in [0, 2, 1, 3] {
            if (!takes[store] && others) || self.among(60) == 0 {
                lent[store] = self.length(right[store], most[store]);
            }
        }
        let [values, book, log, schedules] = lent;
        Lengths {
            values,
            book,
            log,
            schedules,
        }
    }

    /// A length about the right one, not above the most that there is to lend.
    fn length(&mut self, right: u64, most: u64) -> u64 {
        let length = match self.random.below(5) {
            0 => 0,
            1 => right.saturating_sub(1),
            2 => right + 1,
            3 => right + 4,
            _ => most,
        };
        length.min(most)
    }

    /// The day that the month has come to.
    fn today(&self) -> u64 {
        self.month.day.max(self.planned)
    }

    /// Today, seldom another day.
    fn day(&mut self) -> u64 {
        let Month {
            day,
            first,
            clearing,
            correction,
            ..
        } = *self.month;
        let today = self.today();
        match self.among(64) {
            0..=2 => day.wrapping_sub(1),
            3 => today + 1,
            4 => today + 2,
            5 => {
                let deadline = self.random.of(&[first, clearing, correction]);
                deadline + self.random.below(2) as u64
            }
            6 => self.random.of(&[0, 399, 400, 401]),
            _ => today,
        }
    }

    /// The same, and more often the day before the desk's.
    fn day_or_before(&mut self) -> u64 {
        match self.among(24) {
            0 => self.month.day.wrapping_sub(1),
            _ => self.day(),
        }
    }

    fn open(&mut self) -> Call {
        self.plan.opening.clone()
    }

    /// Kind, area and partner that stand together in the table of series.
    fn series(&mut self) -> (u64, u64, u64) {
        if let (Size::Apart(_), false) = (self.plan.size, self.random.once_in(4)) {
            return self.series_of_areas();
        }
        let any = self.plan.size == Size::Points || self.random.once_in(4);
        let area = if any {
            1 + self.random.below(16) as u64
        } else {
            self.random.of(&self.plan.areas)
        };
        let group = if any {
            1 + self.random.below(64) as u64
        } else {
            self.random.of(&self.plan.groups)
        };
        match self.random.below(if self.plan.size == Size::Points {
            30
        } else {
            7
        }) {
            0 => (1, area, 0),
            1 => (1, area, self.random.below(area as usize) as u64),
            2 => (3, area, 0),
            3 => (4, 0, group),
            4 => (5, area, 0),
            _ => (2, area, group),
        }
    }

    /// The same of the plan's areas alone, with more exchanges between areas.
    fn series_of_areas(&mut self) -> (u64, u64, u64) {
        let [one, other] = [0; 2].map(|_| self.random.of(&self.plan.areas));
        let group = self.random.of(&self.plan.groups);
        match self.random.below(8) {
            0 | 1 => (1, one, 0),
            2 | 3 if one != other => (1, one.max(other), one.min(other)),
            2..=4 => (3, one, 0),
            5 => (4, 0, group),
            6 => (5, one, 0),
            _ => (2, one, group),
        }
    }

    fn activate(&mut self) -> Call {
        let points = &self.plan.points;
        let free = points.iter().copied();
        let free = free.filter(|point| !self.month.points.contains_key(point));
        let free: Vec<u64> = free.collect();
        let point = if free.is_empty() || self.among(20) == 0 {
            self.random.of(points)
        } else {
            self.random.of(&free)
        };
        let active = self.active().filter(|_| self.among(12) == 0);
        let (kind, area, partner) = match active {
            Some((_, active)) => (active.kind, active.area, active.partner),
            None => self.series(),
        };
        Call::Activate {
            point,
            kind,
            area,
            partner,
            day: self.day(),
        }
    }

    /// One of the active points.
    fn active(&mut self) -> Option<(u64, &'a Point)> {
        let points = &self.month.points;
        if points.is_empty() {
            return None;
        }
        let at = self.random.below(points.len());
        points
            .iter()
            .nth(at)
            .map(|(&number, point)| (number, point))
    }

    /// Mostly an active point.
    fn point(&mut self) -> u64 {
        let other = self.random.of(&self.plan.points);
        if self.among(20) == 0 {
            return other;
        }
        self.active().map_or(other, |(number, _)| number)
    }

    fn deactivate(&mut self) -> Call {
        Call::Deactivate {
            point: self.point(),
            day: self.day_or_before(),
        }
    }

    fn energy(&mut self) -> u64 {
        let energy = match self.random.below(12) {
            0 => self.random.of(&[0, 1, -1, LARGEST, -LARGEST]),
            _ => self.random.below(2_000_000) as i64 - 1_000_000,
        };
        energy as u64
    }

    /// Mostly a point that is active for two days.
    fn ripe_point(&mut self) -> u64 {
        let today = self.today();
        let unripe = |active: &Point| active.since + 2 > today;
        let mut point = self.point();
        for _ in 0..3 {
            if self.month.points.get(&point).is_some_and(unripe) {
                point = self.point();
            }
        }
        point
    }

    fn submit(&mut self) -> Call {
        let point = self.ripe_point();
        let active = self.month.points.get(&point);
        let highest = active.and_then(Point::newest).map(|v| v.number);
        let above = 1 + self.random.below(3) as u64;
        let version = match highest {
            None if self.random.once_in(100) => 99_999_999_999_999 - self.random.below(9) as u64,
            None => above,
            Some(highest) => match self.among(24) {
                0 => highest,
                1 | 2 => highest.saturating_sub(above).max(1),
                _ => highest + above,
            },
        };
        let series = self.energies();
        Call::Submit {
            point,
            version,
            day: self.day(),
            series,
        }
    }

    /// Mostly Q energies that are not too large.
    fn energies(&mut self) -> Vec<u64> {
        let quarters = self.month.quarters;
        let energies = match self.among(80) {
            0 => quarters + 1,
            1 => quarters - 1,
            _ => quarters,
        };
        let mut series: Vec<u64> = (0..energies).map(|_| self.energy()).collect();
        if self.among(60) == 0 && !series.is_empty() {
            let at = self.random.below(series.len());
            let foreign = [LARGEST + 1, -LARGEST - 1, i64::MAX, i64::MIN];
            series[at] = self.random.of(&foreign) as u64;
        }
        series
    }

    /// One of the versions, mostly of those that are looked for.
    fn version(&mut self, wanted: impl Fn(&Point, &Version) -> bool) -> (u64, u64) {
        let points = self.month.points.iter();
        let all = points.flat_map(|(&point, p)| p.versions.iter().map(move |v| (point, p, v)));
        let all: Vec<(u64, &Point, &Version)> = all.collect();
        let mut found = all.clone();
        found.retain(|(_, p, v)| wanted(p, v));
        if found.is_empty() || self.random.once_in(8) {
            found = all;
        }
        if found.is_empty() || self.random.once_in(16) {
            return (self.point(), 1 + self.random.below(6) as u64);
        }
        let (point, _, version) = self.random.of(&found);
        (point, version.number)
    }

    /// A version for a notice: mostly a point's highest that is check data; else an older one, of status 3 or 4 where there is
    /// one, or a number beside the highest.
    fn noticed(&mut self) -> (u64, u64) {
        let is_newest = |p: &Point, v: &Version| p.newest().is_some_and(|n| n.number == v.number);
        match self.random.below(16) {
            0..=3 => self.version(|p, v| !is_newest(p, v) && v.status > 2),
            4 => {
                let (point, newest) = self.version(is_newest);
                (point, self.random.of(&[newest - 1, newest + 1]))
            }
            _ => self.version(|p, v| is_newest(p, v) && v.status == 1),
        }
    }

    fn notice(&mut self) -> Call {
        let (point, version) = self.noticed();
        let negative = match self.plan.size {
            Size::Apart(_) => 3,
            _ => 4,
        };
        Call::Notice {
            point,
            version,
            verdict: u64::from(!self.random.once_in(negative)),
            day: self.day(),
        }
    }

    /// Mostly of a delta of an active point, of T too; sometimes to the group that the delta has in run 1, to another delta's, or to
    /// the point's own; seldom with a number beside its range.
    fn assign(&mut self) -> Call {
        let active = self.active().map(|(_, point)| point);
        let deltas = active.map_or(vec![0], deltas);
        let alike = deltas.iter().find(|delta| !is_apart(self.month, **delta));
        let area = match self.random.below(12) {
            0 | 1 => self.random.below(17),
            2..=4 => 0,
            5..=8 => alike.copied().unwrap_or(0),
            _ => self.random.of(&deltas),
        };
        let [first, second] = self.month.groups;
        let group = match self.random.below(12) {
            0..=2 => active.map_or(1, |point| point.partner.max(1)),
            3 | 4 => first[area],
            5 => second[0],
            6 => second[self.random.of(&deltas)],
            _ => self.random.of(&self.plan.groups),
        };
        let area = area as u64;
        let is_late = self.month.day > self.month.correction + 1;
        let day = match self.random.once_in(3) {
            true if is_late => self.month.day - 1,
            _ => self.day_or_before(),
        };
        let (area, group, day) = match self.among(60) {
            0 => (17, group, day),
            1 => (area, self.random.of(&[0, 65]), day),
            2 => (area, group, 401),
            _ => (area, group, day),
        };
        Call::Assign { area, group, day }
    }

    /// Mostly one of the plan's groups, seldom one beside the range. Where a delta's group of run 2 is another than run 1's, often
    /// one of the two.
    fn group(&mut self) -> u64 {
        let [first, second] = &self.month.groups;
        let deltas = first.iter().zip(second).filter(|(one, other)| one != other);
        let apart: Vec<u64> = deltas.flat_map(|(one, other)| [*one, *other]).collect();
        match (self.among(60), self.random.below(4)) {
            (0, _) => self.random.of(&[0, 65]),
            (_, 0) => 1 + self.random.below(64) as u64,
            (_, 1 | 2) if !apart.is_empty() => self.random.of(&apart),
            _ => self.random.of(&self.plan.groups),
        }
    }

    /// Run 1 or 2, seldom one beside the range.
    fn run(&mut self) -> u64 {
        match self.among(60) {
            0 => self.random.of(&[0, 3]),
            _ => 1 + self.random.below(2) as u64,
        }
    }

    fn show(&mut self) -> Call {
        Call::Show {
            run: self.run(),
            group: self.group(),
        }
    }

    /// Mostly of a group that has lodged.
    fn report(&mut self) -> Call {
        let lodged: Vec<u64> = self.month.lodged.keys().copied().collect();
        Call::Report {
            run: self.run(),
            group: match self.random.below(3) {
                0 => self.group(),
                _ if lodged.is_empty() => self.group(),
                _ => self.random.of(&lodged),
            },
        }
    }

    /// A schedule, sometimes one that is near the group's figures; some days ahead, seldom a day too
    /// early or on C, sometimes behind C and K.
    fn lodge(&mut self) -> Call {
        let group = self.group();
        let Month {
            clearing,
            correction,
            ..
        } = *self.month;
        let day = match self.among(40) {
            0 => clearing,
            1..=4 => {
                let late = [clearing + 1, correction, correction + 1];
                self.random.of(&late)
            }
            5..=11 => self.today() + 1 + self.random.below(3) as u64,
            12 => self.month.day.wrapping_sub(1),
            _ => self.day(),
        };
        let mut series = self.energies();
        if (1..=GROUPS).contains(&group) && self.random.once_in(3) {
            let start = (group - 1) as usize * self.month.quarters as usize;
            let figures = self.month.figures(1);
            for (energy, figure) in series.iter_mut().zip(&figures[start..]) {
                *energy = (*figure as u64).wrapping_add(self.random.of(&[0, 0, 1, u64::MAX]));
            }
        }
        Call::Lodge { group, day, series }
    }

    fn status(&mut self) -> Call {
        let (point, version) = self.version(|_, _| true);
        Call::Status { point, version }
    }

    fn close(&mut self) -> Call {
        let due = self.due();
        Call::Close {
            run: due.unwrap_or_else(|| self.run()),
            day: self.day_or_before(),
        }
    }

    /// Mostly of a run that is to be issued.
    fn issue(&mut self) -> Call {
        let to_issue = self.to_issue();
        let run = match to_issue[..] {
            [] if self.plan.second_first => 2,
            [] => self.run(),
            _ if self.random.once_in(4) => self.run(),
            _ => self.random.of(&to_issue),
        };
        Call::Issue {
            run,
            day: self.day_or_before(),
        }
    }

    /// The run that is not closed although its deadline has passed, in a month that is to be issued.
    fn due(&self) -> Option<u64> {
        let Size::Issued(_) = self.plan.size else {
            return None;
        };
        let today = self.today();
        match self.month.closed {
            [false, _] if today > self.month.clearing => Some(1),
            [true, false] if today > self.month.correction => Some(2),
            _ => None,
        }
    }

    /// The runs that are closed and not issued. Where run 2 comes first, it alone until it is issued, and then again beside run 1.
    fn to_issue(&self) -> Vec<u64> {
        let states = [1, 2].map(|run| state(self.month, run));
        match (states, self.plan.second_first) {
            ([CLOSED, CLOSED], true) => vec![2],
            ([CLOSED, ISSUED], true) => vec![1, 2, 2, 2],
            ([CLOSED, CLOSED], false) => vec![1, 2],
            ([CLOSED, _], false) => vec![1],
            ([_, CLOSED], _) => vec![2],
            _ => vec![],
        }
    }

    /// Whether run 1 is closed and run 2 takes corrections.
    fn is_corrected(&self) -> bool {
        self.month.closed[0] && self.today() <= self.month.correction
    }
}
