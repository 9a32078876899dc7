// The work of a server's start over its file, over libsqlite3: the settings, and an audit in one pass over the rows of usage, trans and
// ceiling, with sums by login and day. It is the yardstick of bench/audit.py, and no part of mailquota.
//
// usage: audit_twin FILE DEFAULT [check]
// It prints what `mailquota audit` prints, and on standard error the most kilobytes that it had resident. With `check` it has the library
// check all rows and indexes first (PRAGMA integrity_check), as the library under mailquota does when it opens a file. It knows tables of
// an offset only, and no page sums.
#include <sqlite3.h>

#include <cstdint>
#include <cstdio>
#include <cstdlib>
#include <fstream>
#include <iterator>
#include <map>
#include <string>
#include <string_view>
#include <unordered_map>
#include <utility>

namespace {

const int64_t FIRST_MOMENT = 86'400, LAST_MOMENT = 32'503'680'000, DAY = 86'400, MINUTE = 60;
const int64_t VERSION = 3;

using Pair = std::pair<std::string, int64_t>;

struct PairHash {
    size_t operator()(const Pair &pair) const { return std::hash<std::string>()(pair.first) * 31 + std::hash<int64_t>()(pair.second); }
};

// What is kept of a login and day: its row of usage, and what its transactions have together.
struct Day {
    int64_t settled = 0, reserved = 0;
    __int128 settled_sum = 0, held_sum = 0;
    bool are_dated = true;
};

struct Settings {
    int64_t minutes, cap;
};

class Base {
  public:
    explicit Base(const char *path) {
        if (sqlite3_open_v2(path, &base, SQLITE_OPEN_READWRITE, nullptr) != SQLITE_OK) fail();
    }

    ~Base() { sqlite3_close(base); }

    // Gives each row of a query.
    template <typename Take> void each(const char *text, Take take) {
        sqlite3_stmt *statement;
        if (sqlite3_prepare_v2(base, text, -1, &statement, nullptr) != SQLITE_OK) fail();
        int code;
        while ((code = sqlite3_step(statement)) == SQLITE_ROW) take(statement);
        if (code != SQLITE_DONE) fail();
        sqlite3_finalize(statement);
    }

  private:
    sqlite3 *base = nullptr;

    [[noreturn]] void fail() {
        std::fprintf(stderr, "audit_twin: %s\n", sqlite3_errmsg(base));
        std::exit(1);
    }
};

Pair pair_of(sqlite3_stmt *row) {
    const char *login = static_cast<const char *>(sqlite3_column_blob(row, 0));
    size_t length = sqlite3_column_bytes(row, 0);
    return {std::string(login ? login : "", length), sqlite3_column_int64(row, 1)};
}

class Books {
  public:
    explicit Books(Settings settings) : settings(settings) {}

    void read(Base &base) {
        base.each("SELECT login, day, settled, reserved FROM usage", [this](sqlite3_stmt *row) { add_usage(row); });
        base.each("SELECT login, day, moment, held, settled FROM trans", [this](sqlite3_stmt *row) { add_transaction(row); });
        base.each("SELECT login, day, cap FROM ceiling", [this](sqlite3_stmt *row) { caps.emplace(pair_of(row), sqlite3_column_int64(row, 2)); });
    }

    // Of the pairs that aren't right the least, or none.
    const Pair *least_wrong() const {
        const Pair *least = nullptr;
        for (const auto &[pair, day] : days)
            if (!is_right(pair, day) && (!least || pair < *least)) least = &pair;
        return least;
    }

    uint64_t usage_rows = 0, transaction_rows = 0;

  private:
    Settings settings;
    std::unordered_map<Pair, Day, PairHash> days;
    std::map<Pair, int64_t> caps;

    void add_usage(sqlite3_stmt *row) {
        Day &day = days[pair_of(row)];
        day.settled = sqlite3_column_int64(row, 2);
        day.reserved = sqlite3_column_int64(row, 3);
        usage_rows++;
    }

    void add_transaction(sqlite3_stmt *row) {
        Pair pair = pair_of(row);
        int64_t moment = sqlite3_column_int64(row, 2), number = pair.second;
        Day &day = days[std::move(pair)];
        day.held_sum += sqlite3_column_int64(row, 3);
        day.settled_sum += sqlite3_column_int64(row, 4);
        day.are_dated = day.are_dated && FIRST_MOMENT <= moment && moment <= LAST_MOMENT && (moment + MINUTE * settings.minutes) / DAY == number;
        transaction_rows++;
    }

    // The login's latest limit from that day or an earlier one on, or the default.
    int64_t cap_of(const Pair &pair) const {
        auto after = caps.upper_bound(pair);
        if (after == caps.begin()) return settings.cap;
        auto latest = std::prev(after);
        return latest->first.first == pair.first ? latest->second : settings.cap;
    }

    bool is_right(const Pair &pair, const Day &day) const {
        return day.settled == day.settled_sum && day.reserved == day.held_sum
               && static_cast<__int128>(day.settled) + day.reserved <= cap_of(pair) && day.are_dated;
    }
};

[[noreturn]] void refuse(const char *why) {
    std::fprintf(stderr, "audit_twin: %s\n", why);
    std::exit(1);
}

Settings settings_of(Base &base, int64_t cap) {
    Settings found = {0, -1};
    base.each("SELECT version, minutes, cap FROM setting WHERE id = 1", [&found](sqlite3_stmt *row) {
        int64_t version = sqlite3_column_int64(row, 0);
        if (version < 1 || VERSION < version) refuse("another version");
        found = {sqlite3_column_int64(row, 1), sqlite3_column_int64(row, 2)};
    });
    if (found.cap != cap) refuse("another default");
    return found;
}

void check(Base &base) {
    base.each("PRAGMA integrity_check", [](sqlite3_stmt *row) {
        std::string_view said = reinterpret_cast<const char *>(sqlite3_column_text(row, 0));
        if (said != "ok") refuse("the file is damaged");
    });
}

void print_memory() {
    std::ifstream status("/proc/self/status");
    for (std::string line; std::getline(status, line);)
        if (line.rfind("VmHWM:", 0) == 0) std::fprintf(stderr, "%lld\n", std::atoll(line.c_str() + 6));
}

}  // namespace

int main(int count, char **words) {
    if (count < 3) refuse("usage: audit_twin FILE DEFAULT [check]");
    Base base(words[1]);
    if (count > 3) check(base);
    Books books(settings_of(base, std::atoll(words[2])));
    books.read(base);
    if (const Pair *wrong = books.least_wrong()) {
        std::printf("wrong day=%lld\n", static_cast<long long>(wrong->second));
        return 1;
    }
    std::printf("sound days=%llu transactions=%llu\n", static_cast<unsigned long long>(books.usage_rows),
                static_cast<unsigned long long>(books.transaction_rows));
    print_memory();
}
