//! Months as message files.

use crate::cause::{POINTS, VERSIONS};
use emorizugu_tests::generator::Random;
use emorizugu_tests::message::{self, SUBMIT};

/// F, C and K of every month here.
const DEADLINES: [u64; 3] = [10, 30, 150];

/// The number of a point's first version; later ones count on from it.
const FIRST_VERSION: u64 = 20_250_101_120_000;

/// A message file, with what its buffers need.
pub struct Month {
    /// The file.
    pub file: Vec<u8>,
    /// Its quarter hours.
    pub quarters: usize,
    /// Its calls.
    pub calls: usize,
}

/// A file as it grows.
struct Growing {
    month: Month,
    call: Vec<u8>,
    random: Random,
}

impl Growing {
    fn new(quarters: usize) -> Growing {
        Growing {
            month: Month {
                file: Vec::new(),
                quarters,
                calls: 0,
            },
            call: vec![0; 1 << 16],
            random: Random::new(7),
        }
    }

    fn append(&mut self, kind: u64, fields: &[u64], series: &[u64]) {
        let length = message::write(kind, fields, series, &mut self.call).expect("a call");
        self.month.file.extend_from_slice(&self.call[..length]);
        self.month.calls += 1;
    }

    /// The opening, and on day 0 all points.
    fn open(&mut self) {
        let [first, clearing, correction] = DEADLINES;
        let mut fields = vec![self.month.quarters as u64, first, clearing, correction];
        fields.extend((0..17).map(|delta| 1 + 3 * delta));
        self.append(1, &fields, &[]);
        for (point, &(kind, area, partner)) in points().iter().enumerate() {
            self.append(2, &[point as u64 + 1, kind, area, partner, 0], &[]);
        }
    }

    /// A series of one level, as a network's are; below 0 for half of the exchanges and delta transfers.
    fn series(&mut self, kind: u64) -> Vec<u64> {
        let level = 1_000 << self.random.below(12);
        let negative = [1, 5].contains(&kind) && self.random.once_in(2);
        let mut energy = || {
            let size = (level / 2 + self.random.below(level)) as u64;
            if negative {
                size.wrapping_neg()
            } else {
                size
            }
        };
        (0..self.month.quarters).map(|_| energy()).collect()
    }
}

/// Kind, area and partner of the 256 points: 40 exchanges, 160 and 24 group sums, 16 area sums, 16 delta transfers, in a
/// mixed order.
fn points() -> Vec<(u64, u64, u64)> {
    let areas = 1..=16;
    let outside = areas.clone().map(|area| (1, area, 0));
    let neighbours = (2..=16).map(|area| (1, area, area - 1));
    let others = (3..=11).map(|area| (1, area, area - 2));
    let sums = areas
        .clone()
        .flat_map(|area| (0..10).map(move |i| (2, area, 1 + (10 * area + i) % 64)));
    let area_sums = areas.clone().map(|area| (3, area, 0));
    let group_sums = (0..24).map(|i| (4, 0, 1 + 2 * i));
    let transfers = areas.map(|area| (5, area, 0));
    let ordered: Vec<_> = outside
        .chain(neighbours)
        .chain(others)
        .chain(sums)
        .chain(area_sums)
        .chain(group_sums)
        .chain(transfers)
        .collect();
    assert_eq!(ordered.len(), POINTS);
    (0..POINTS).map(|i| ordered[97 * i % POINTS]).collect()
}

/// A call of a month behind the activations.
enum Event {
    Submit { point: usize, version: u64 },
    Notice { point: usize, verdict: u64 },
    Assign { area: u64, group: u64 },
    Close { run: u64 },
    Issue { run: u64 },
}

/// The calls behind the activations, each with its day, in their order.
fn events() -> Vec<(u64, Event)> {
    let mut events = Vec::new();
    for point in 0..POINTS {
        let i = point as u64;
        let version = FIRST_VERSION;
        events.push((2 + i / 64, Event::Submit { point, version }));
        let version = FIRST_VERSION + 1;
        // The second version by F, or after it with a notice: by C, after C, after C and run 1's issue, negative.
        let (day, notice) = match i % 8 {
            0 | 4 => (6 + i / 64, None),
            1 | 5 => (11 + i % 18, Some((13 + i % 18, 1))),
            2 | 6 => (11 + i % 18, Some((31 + i % 4, 1))),
            3 => (11 + i % 18, Some((36 + i % 60, 1))),
            _ => (11 + i % 18, Some((13 + i % 18, 0))),
        };
        events.push((day, Event::Submit { point, version }));
        if let Some((day, verdict)) = notice {
            events.push((day, Event::Notice { point, verdict }));
        }
    }
    for i in 0..8 {
        let (area, group) = (2 * i, 64 - 5 * i);
        events.push((5 + 3 * i, Event::Assign { area, group }));
    }
    for (run, day) in [(1, 35), (2, 151)] {
        events.push((day, Event::Close { run }));
        events.push((day, Event::Issue { run }));
    }
    events.sort_by_key(|&(day, _)| day);
    events
}

/// A month: 256 points, 512 versions, 192 notices, eight assignments, both runs closed and issued. Every call is accepted.
pub fn month(quarters: usize) -> Month {
    let mut growing = Growing::new(quarters);
    growing.open();
    let points = points();
    for (day, event) in events() {
        match event {
            Event::Submit { point, version } => {
                let series = growing.series(points[point].0);
                growing.append(SUBMIT, &[point as u64 + 1, version, day], &series);
            }
            Event::Notice { point, verdict } => {
                let version = FIRST_VERSION + 1;
                growing.append(5, &[point as u64 + 1, version, verdict, day], &[]);
            }
            Event::Assign { area, group } => growing.append(6, &[area, group, day], &[]),
            Event::Close { run } => growing.append(7, &[run, day], &[]),
            Event::Issue { run } => growing.append(8, &[run, day], &[]),
        }
    }
    growing.month
}

/// Versions held, from one to another, between which `growth` submits alike series.
pub const WINDOWS: [(usize, usize); 5] = [(1, 9), (112, 144), (240, 272), (368, 400), (480, 512)];

/// All points active and so many versions submitted, none by a notice. In a window each is the first version of a group
/// sum of kind 2; outside of it the other points get a version each by turns. Every series is the same.
pub fn growth(quarters: usize, versions: usize) -> Month {
    assert!(versions <= VERSIONS);
    let mut growing = Growing::new(quarters);
    growing.open();
    let series = growing.series(2);
    let points = points();
    let (alike, others): (Vec<usize>, Vec<usize>) =
        (0..POINTS).partition(|&point| points[point].0 == 2);
    let mut alike = alike.into_iter();
    let mut turns = others.iter().cycle();
    for held in 0..versions {
        let version = FIRST_VERSION + held as u64;
        let in_window = WINDOWS.iter().any(|&(from, to)| (from..to).contains(&held));
        let point = if in_window {
            alike.next().expect("a point without a version")
        } else {
            *turns.next().expect("a point")
        };
        growing.append(SUBMIT, &[point as u64 + 1, version, 2], &series);
    }
    growing.month
}

/// A file of any calls on few points, about as many accepted as refused; one in eight is cut.
pub fn any_calls(seed: u64) -> Month {
    let mut growing = Growing::new(1);
    growing.random = Random::new(seed);
    growing.month.quarters = 1 + growing.random.below(4);
    if !growing.random.once_in(8) {
        growing.any_open();
    }
    let mut day = 0;
    for _ in 0..150 {
        let random = &mut growing.random;
        day += match random.below(10) {
            0 => random.below(7) as u64,
            _ => 0,
        };
        // One day in forty stands apart from the days of the other calls.
        let here = match random.below(40) {
            0 => random.below(402) as u64,
            _ => day,
        };
        growing.any_call(here);
    }
    if growing.random.once_in(8) {
        let length = growing.random.below(growing.month.file.len() + 1);
        growing.month.file.truncate(length);
    }
    growing.month
}

impl Growing {
    fn any_open(&mut self) {
        let random = &mut self.random;
        let quarters = match random.below(20) {
            0 => random.of(&[0, 2_980, 2_981]),
            _ => self.month.quarters as u64,
        };
        let correction = match random.below(20) {
            0 => random.of(&[20, 399, 400]),
            _ => 70,
        };
        let mut fields = vec![quarters, 15, 30, correction];
        fields.extend((0..17).map(|_| match random.below(300) {
            0 => random.of(&[0, 64, 65]),
            _ => 1 + random.below(5) as u64,
        }));
        self.append(1, &fields, &[]);
    }

    fn any_call(&mut self, day: u64) {
        let random = &mut self.random;
        let point = match random.below(50) {
            0 => random.of(&[0, 255, 256, 257]),
            _ => 1 + random.below(6) as u64,
        };
        let version = match random.below(50) {
            0 => random.of(&[0, 99_999_999_999_999, 100_000_000_000_000]),
            _ => 1 + day / 4 + random.below(3) as u64,
        };
        match random.below(46) {
            0 => self.any_open(),
            1..=8 => {
                let series = match random.below(3) {
                    0 => [random.below(7), random.below(18), random.below(66)],
                    1 => [1 + random.below(5), random.below(4), 0],
                    _ => random.of(&[[1, 2, 1], [2, 1, 3], [2, 2, 1], [3, 1, 0], [4, 0, 2]]),
                };
                let [kind, area, partner] = series.map(|number| number as u64);
                self.append(2, &[point, kind, area, partner, day], &[]);
            }
            9 => self.append(3, &[point, day], &[]),
            10..=25 => self.any_submission(point, version, day),
            26..=35 => {
                let verdict = random.of(&[0, 1, 1, 1, 1, 1, 1, 2]);
                self.append(5, &[point, version, verdict, day], &[]);
            }
            36 | 37 => {
                let (area, group) = (random.below(18) as u64, random.below(7) as u64);
                self.append(6, &[area, group, day], &[]);
            }
            _ => {
                let run = random.of(&[0, 1, 1, 1, 2, 2, 2, 3]);
                let kind = random.of(&[7, 8]);
                self.append(kind, &[run, day], &[]);
            }
        }
    }

    fn any_submission(&mut self, point: u64, version: u64, day: u64) {
        let random = &mut self.random;
        let count = match random.below(30) {
            0 => random.below(6),
            _ => self.month.quarters,
        };
        let limit = 1_000_000_000_000i64;
        let mut energy = || match random.below(80) {
            0 => random.of(&[limit, -limit, limit + 1, -limit - 1]) as u64,
            _ => random.bits(30).wrapping_sub(1 << 28),
        };
        let series: Vec<u64> = (0..count).map(|_| energy()).collect();
        self.append(SUBMIT, &[point, version, day], &series);
    }
}
