//! The functions of the static libraries `host` and `test_drive`, each behind a safe function. None of
//! them asks anything of its caller, so a slice's pointer and length are all that there is to get right.

#[path = "../../command/src/entries.rs"]
mod entries;

use crate::calendar::{Date, Month};
use entries::{
    emorizugu_date, emorizugu_date_refusal, emorizugu_day, emorizugu_day_refusal, emorizugu_figure,
    emorizugu_figure_refusal, emorizugu_file_offset, emorizugu_file_refusal, emorizugu_read,
    emorizugu_read_offset, emorizugu_replay, emorizugu_report_refusal, emorizugu_shortfall,
    emorizugu_surplus, emorizugu_weekday, emorizugu_write,
};

extern "C" {
    fn drive_script(
        script: *const u64,
        script_len: usize,
        values: *mut u64,
        values_len: usize,
        book: *mut u64,
        book_len: usize,
        log: *mut u64,
        log_len: usize,
        schedules: *mut u64,
        schedules_len: usize,
        out: *mut u64,
        out_len: usize,
    ) -> u64;

    fn drive_walk(
        table: *const u64,
        table_len: usize,
        count: u64,
        rows: u64,
        point: u64,
        version: u64,
        out: *mut u64,
        out_len: usize,
    );
}

/// `emorizugu_file_refusal`.
pub fn file_refusal(file: &[u8]) -> u64 {
    unsafe { emorizugu_file_refusal(file.as_ptr(), file.len()) }
}

/// `emorizugu_file_offset`.
pub fn file_offset(file: &[u8]) -> u64 {
    unsafe { emorizugu_file_offset(file.as_ptr(), file.len()) }
}

/// `emorizugu_figure_refusal`.
pub fn figure_refusal(book: &[u8], quarters: u64, run: u64, group: u64, quarter: u64) -> u64 {
    unsafe { emorizugu_figure_refusal(book.as_ptr(), book.len(), quarters, run, group, quarter) }
}

/// `emorizugu_figure`.
pub fn figure(book: &[u8], quarters: u64, run: u64, group: u64, quarter: u64) -> u64 {
    unsafe { emorizugu_figure(book.as_ptr(), book.len(), quarters, run, group, quarter) }
}

/// `emorizugu_report_refusal`.
pub fn report_refusal(book: &[u8], schedules: &[u8], quarters: u64, run: u64, group: u64) -> u64 {
    let (lent, length) = (schedules.as_ptr(), schedules.len());
    let book = (book.as_ptr(), book.len());
    unsafe { emorizugu_report_refusal(book.0, book.1, lent, length, quarters, run, group) }
}

/// `emorizugu_surplus` and `emorizugu_shortfall`.
pub fn report(book: &[u8], schedules: &[u8], quarters: u64, run: u64, group: u64) -> [u64; 2] {
    let (lent, length) = (schedules.as_ptr(), schedules.len());
    let book = (book.as_ptr(), book.len());
    [emorizugu_surplus, emorizugu_shortfall]
        .map(|sum| unsafe { sum(book.0, book.1, lent, length, quarters, run, group) })
}

/// `emorizugu_replay`; the stores are values, book, log and schedules, the tables summary, points and versions.
pub fn replay(
    file: &[u8],
    stores: [&mut [u64]; 4],
    series: &mut [u64],
    answers: &mut [u64],
    tables: [&mut [u64]; 3],
) -> u64 {
    let [values, book, log, schedules] = stores;
    let [summary, points, versions] = tables;
    unsafe {
        emorizugu_replay(
            file.as_ptr(),
            file.len(),
            values.as_mut_ptr(),
            values.len(),
            book.as_mut_ptr(),
            book.len(),
            log.as_mut_ptr(),
            log.len(),
            schedules.as_mut_ptr(),
            schedules.len(),
            series.as_mut_ptr(),
            series.len(),
            answers.as_mut_ptr(),
            answers.len(),
            summary.as_mut_ptr(),
            summary.len(),
            points.as_mut_ptr(),
            points.len(),
            versions.as_mut_ptr(),
            versions.len(),
        )
    }
}

/// `emorizugu_read`.
pub fn read(file: &[u8], start: u64, series: &mut [u64], out: &mut [u64]) -> u64 {
    unsafe {
        emorizugu_read(
            file.as_ptr(),
            file.len(),
            start,
            series.as_mut_ptr(),
            series.len(),
            out.as_mut_ptr(),
            out.len(),
        )
    }
}

/// `emorizugu_read_offset`.
pub fn read_offset(file: &[u8], start: u64, room: u64) -> u64 {
    unsafe { emorizugu_read_offset(file.as_ptr(), file.len(), start, room) }
}

/// `emorizugu_write`.
pub fn write(kind: u64, fields: &[u64], series: &[u64], output: &mut [u8], out: &mut [u64]) -> u64 {
    unsafe {
        emorizugu_write(
            kind,
            fields.as_ptr(),
            fields.len(),
            series.as_ptr(),
            series.len(),
            output.as_mut_ptr(),
            output.len(),
            out.as_mut_ptr(),
            out.len(),
        )
    }
}

/// `emorizugu_day_refusal`.
pub fn day_refusal(settled: Month, date: Date) -> u64 {
    unsafe { emorizugu_day_refusal(settled.0, settled.1, date.0, date.1, date.2) }
}

/// `emorizugu_day`.
pub fn day(settled: Month, date: Date) -> u64 {
    unsafe { emorizugu_day(settled.0, settled.1, date.0, date.1, date.2) }
}

/// `emorizugu_date_refusal`.
pub fn date_refusal(settled: Month, number: u64) -> u64 {
    unsafe { emorizugu_date_refusal(settled.0, settled.1, number) }
}

/// `emorizugu_date`.
pub fn date(settled: Month, number: u64) -> u64 {
    unsafe { emorizugu_date(settled.0, settled.1, number) }
}

/// `emorizugu_weekday`.
pub fn weekday(date: Date) -> u64 {
    unsafe { emorizugu_weekday(date.0, date.1, date.2) }
}

/// `drive_script`; the stores are values, book, log and schedules.
pub fn script(script: &[u64], stores: [&mut [u64]; 4], out: &mut [u64]) -> u64 {
    let [values, book, log, schedules] = stores;
    unsafe {
        drive_script(
            script.as_ptr(),
            script.len(),
            values.as_mut_ptr(),
            values.len(),
            book.as_mut_ptr(),
            book.len(),
            log.as_mut_ptr(),
            log.len(),
            schedules.as_mut_ptr(),
            schedules.len(),
            out.as_mut_ptr(),
            out.len(),
        )
    }
}

/// `drive_walk`; what is asked are count, rows, point and version.
pub fn walk(table: &[u64], asked: [u64; 4], out: &mut [u64]) {
    let [count, rows, point, version] = asked;
    let (lent, length) = (out.as_mut_ptr(), out.len());
    let table = (table.as_ptr(), table.len());
    unsafe { drive_walk(table.0, table.1, count, rows, point, version, lent, length) }
}
