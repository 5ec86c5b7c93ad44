// A host in C++: a message file through a fresh desk, then each group's month.
//
//     g++ host.cc $(pkg-config --cflags --libs emorizugu) -o host && ./host month.msg
#include <cstdio>
#include <fstream>
#include <iterator>
#include <vector>

#include "emorizugu.h"

int main(int argc, char **argv) {
    std::ifstream in(argc == 2 ? argv[1] : "", std::ios::binary);
    if (!in)
        return std::fprintf(stderr, "usage: host MESSAGE-FILE\n"), 2;
    std::vector<char> file{std::istreambuf_iterator<char>(in), {}};
    std::vector<uint64_t> values(EMORIZUGU_VALUES_LENGTH(EMORIZUGU_QUARTERS, EMORIZUGU_VERSIONS)),
        book(EMORIZUGU_BOOK_LENGTH(EMORIZUGU_QUARTERS)), log(EMORIZUGU_LOG_LENGTH(EMORIZUGU_VERSIONS)),
        schedules(EMORIZUGU_SCHEDULES_LENGTH(EMORIZUGU_QUARTERS)), series(EMORIZUGU_SERIES_LENGTH),
        answers(EMORIZUGU_ANSWERS_LENGTH(file.size()));
    static emorizugu_lent r{};
    r.file = reinterpret_cast<const uint8_t *>(file.data()), r.length = file.size();
    r.values = values.data(), r.values_length = values.size(), r.book = book.data(), r.book_length = book.size();
    r.log = log.data(), r.log_length = log.size(), r.schedules = schedules.data(), r.schedules_length = schedules.size();
    r.series = series.data(), r.series_length = series.size(), r.answers = answers.data(), r.answers_length = answers.size();
    uint64_t refusal = emorizugu_run(&r), quarters = r.summary[EMORIZUGU_OPENED];
    std::printf("%d refused, ending %d\n", int(r.summary[EMORIZUGU_REFUSED]), int(refusal));
    for (uint64_t group = 1; group <= EMORIZUGU_GROUPS; group++)
        if (uint64_t sum = emorizugu_sum(book.data(), book.size(), quarters, 1, group - 1))
            std::printf("group %d: %lld Wh\n", int(group), (long long)sum);
    return refusal != 0 || r.summary[EMORIZUGU_REFUSED] != 0;
}
