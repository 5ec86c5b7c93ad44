//! A second implementation of document 01 and of document 02's calendar, statuses, notices, schedules, walk over the versions,
//! close and issue, and delta groups for each run, written from the papers alone, and what its comparison with the proved
//! libraries needs. The comparisons themselves stand in `tests/`, one file for each thing compared.
//!
//! | module | what it is |
//! |---|---|
//! | `message` | second implementation: reader and writer of the message file |
//! | `figure` | second implementation: the figure in a book of bytes |
//! | `report` | second implementation: the report on a book and schedules that may hold anything |
//! | `call` | the twelve calls and their fields |
//! | `desk`, `worked` | second implementation: the plain desk, and what its list of calls says |
//! | `walk` | second implementation: one walk over a version table that may hold anything |
//! | `replay` | second implementation: a whole file through the plain desk |
//! | `calendar` | second implementation: working days, and dates as day numbers |
//! | `program` | second implementation: what the desk program prints; and a run of the program |
//! | `numbers` | the message file's answers as numbers in slices, the form in which `host` gives them |
//! | `linked` | the functions of the static libraries, each behind a safe function |
//! | `generator` | message files, calls and books from a seed |
//! | `script` | calls as numbers in a slice, the form in which `test_drive` takes them |
//! | `months`, `pick` | months of calls from a seed, and the choice of each call |
//! | `files` | message files of months, whole and spoiled, and the calls of a file as text |
//! | `damage` | the fields of the desk's state with their limits |
//! | `compare` | a month with both desks, and the shortest list of calls where they differ |
//! | `counts` | which cases the compared calls and selected versions were |
//! | `notices` | which cases the compared notices were, and what they come to on a desk that was fresh |
//! | `acts` | which cases the compared closes and issues were, and what they come to on a desk that was fresh |
//! | `groups` | which cases the compared assignments were, and the calls where the runs have other delta groups; what they come to on a desk that was fresh; what brings a desk's delta groups out |
//! | `schedules` | which cases the compared lodgings and reports were, and what the deviations of all groups add up to |
//! | `tally` | how often each answer was compared |

#![warn(missing_docs)]

pub mod acts;
pub mod calendar;
pub mod call;
pub mod compare;
pub mod counts;
pub mod damage;
pub mod desk;
pub mod figure;
pub mod files;
pub mod generator;
pub mod groups;
pub mod linked;
pub mod message;
pub mod months;
pub mod notices;
pub mod numbers;
mod pick;
pub mod program;
pub mod replay;
pub mod report;
pub mod schedules;
pub mod script;
pub mod tally;
pub mod walk;
pub mod worked;
