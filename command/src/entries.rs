//! The entries of the static library `host`, as `include/emorizugu.h` declares them. The tests use the same declarations.

// Each program calls those that it needs.
#[allow(dead_code)]
extern "C" {
    pub fn emorizugu_replay(
        file: *const u8,
        length: usize,
        values: *mut u64,
        values_length: usize,
        book: *mut u64,
        book_length: usize,
        log: *mut u64,
        log_length: usize,
        schedules: *mut u64,
        schedules_length: usize,
        series: *mut u64,
        series_length: usize,
        answers: *mut u64,
        answers_length: usize,
        summary: *mut u64,
        summary_length: usize,
        points: *mut u64,
        points_length: usize,
        versions: *mut u64,
        versions_length: usize,
    ) -> u64;
    pub fn emorizugu_file_refusal(file: *const u8, length: usize) -> u64;
    pub fn emorizugu_file_offset(file: *const u8, length: usize) -> u64;
    pub fn emorizugu_figure_refusal(
        book: *const u8,
        length: usize,
        quarters: u64,
        run: u64,
        group: u64,
        quarter: u64,
    ) -> u64;
    pub fn emorizugu_figure(
        book: *const u8,
        length: usize,
        quarters: u64,
        run: u64,
        group: u64,
        quarter: u64,
    ) -> u64;
    pub fn emorizugu_report_refusal(
        book: *const u8,
        length: usize,
        schedules: *const u8,
        schedules_length: usize,
        quarters: u64,
        run: u64,
        group: u64,
    ) -> u64;
    pub fn emorizugu_surplus(
        book: *const u8,
        length: usize,
        schedules: *const u8,
        schedules_length: usize,
        quarters: u64,
        run: u64,
        group: u64,
    ) -> u64;
    pub fn emorizugu_shortfall(
        book: *const u8,
        length: usize,
        schedules: *const u8,
        schedules_length: usize,
        quarters: u64,
        run: u64,
        group: u64,
    ) -> u64;
    pub fn emorizugu_sum(book: *const u64, length: usize, quarters: u64, run: u64, row: u64)
        -> u64;
    pub fn emorizugu_difference(book: *const u64, length: usize, quarters: u64, row: u64) -> u64;
    pub fn emorizugu_day_refusal(
        year: u64,
        month: u64,
        date_year: u64,
        date_month: u64,
        date_day: u64,
    ) -> u64;
    pub fn emorizugu_day(
        year: u64,
        month: u64,
        date_year: u64,
        date_month: u64,
        date_day: u64,
    ) -> u64;
    pub fn emorizugu_date_refusal(year: u64, month: u64, day: u64) -> u64;
    pub fn emorizugu_date(year: u64, month: u64, day: u64) -> u64;
    pub fn emorizugu_weekday(year: u64, month: u64, day: u64) -> u64;
    pub fn emorizugu_version() -> u64;
    pub fn emorizugu_read(
        file: *const u8,
        length: usize,
        start: u64,
        series: *mut u64,
        series_length: usize,
        call: *mut u64,
        call_length: usize,
    ) -> u64;
    pub fn emorizugu_read_offset(file: *const u8, length: usize, start: u64, room: u64) -> u64;
    pub fn emorizugu_write(
        kind: u64,
        fields: *const u64,
        fields_length: usize,
        series: *const u64,
        series_length: usize,
        output: *mut u8,
        output_length: usize,
        size: *mut u64,
        size_length: usize,
    ) -> u64;
}
