/* The ledger in the same tables over libsqlite3, with the same statements and pragmas, in one file.

   usage: twin PATH|:memory: [--create]
   Once the tables are there it writes "ready" and a line's end. Then it reads batches, four bytes of length and that many bytes of
   frames, and writes back the replies to a batch in the same way, until its input ends. Every frame is a request in range. */
#include <sqlite3.h>
#include <stdint.h>
#include <stdio.h>
#include <stdlib.h>
#include <string.h>

enum { RESERVE = 1, SETTLE, RELEASE, LIMIT, USAGE, LIST };
enum { GRANTED = 0x81, FULL, SETTLED, RELEASED, LIMIT_SET, OVER, CLOSED, MISMATCH, TOO_MANY, CONFLICT, USAGE_OF, LIST_OF };

static const int64_t DEFAULT_CAP = 1000000, DAY = 86400, PAGE = 100;

static const char *TABLES[] = {
    "CREATE TABLE setting (id INTEGER PRIMARY KEY, version INTEGER NOT NULL,"
    " minutes INTEGER NOT NULL, cap INTEGER NOT NULL, arrivals INTEGER NOT NULL) STRICT",
    "CREATE TABLE answer (n INTEGER PRIMARY KEY, host BLOB NOT NULL, run INTEGER NOT NULL,"
    " seq INTEGER NOT NULL, request BLOB NOT NULL, reply BLOB NOT NULL, UNIQUE (host, run, seq)) STRICT",
    "CREATE TABLE trans (host BLOB NOT NULL, run INTEGER NOT NULL, txn INTEGER NOT NULL, login BLOB NOT NULL,"
    " moment INTEGER NOT NULL, day INTEGER NOT NULL, held INTEGER NOT NULL, settled INTEGER NOT NULL,"
    " closed INTEGER NOT NULL, PRIMARY KEY (host, run, txn)) STRICT",
    "CREATE TABLE usage (login BLOB NOT NULL, day INTEGER NOT NULL, settled INTEGER NOT NULL,"
    " reserved INTEGER NOT NULL, PRIMARY KEY (login, day)) STRICT",
    "CREATE TABLE ceiling (login BLOB NOT NULL, day INTEGER NOT NULL, cap INTEGER NOT NULL,"
    " PRIMARY KEY (login, day)) STRICT",
    "INSERT INTO setting (id, version, minutes, cap, arrivals) VALUES (1, 1, 0, 1000000, 0)",
};

enum {
    BEGIN, COMMIT, ARRIVALS, SET_ARRIVALS, FIND_ANSWER, APPEND_ANSWER, FIND_TRANS, INSERT_TRANS, UPDATE_TRANS, FIND_USAGE,
    INSERT_USAGE, UPDATE_USAGE, FIND_CAP, FIND_CEILING, INSERT_CEILING, UPDATE_CEILING, FIND_OVER, NEXT_USAGE, STATEMENTS
};

static const char *TEXTS[STATEMENTS] = {
    [BEGIN] = "BEGIN",
    [COMMIT] = "COMMIT",
    [ARRIVALS] = "SELECT arrivals FROM setting WHERE id = 1",
    [SET_ARRIVALS] = "UPDATE setting SET arrivals = ?1 WHERE id = 1",
    [FIND_ANSWER] = "SELECT n, request, reply FROM answer WHERE host = ?1 AND run = ?2 AND seq = ?3",
    [APPEND_ANSWER] = "INSERT INTO answer (n, host, run, seq, request, reply) VALUES (?1, ?2, ?3, ?4, ?5, ?6)",
    [FIND_TRANS] = "SELECT login, moment, day, held, settled, closed FROM trans WHERE host = ?1 AND run = ?2 AND txn = ?3",
    [INSERT_TRANS] = "INSERT INTO trans (host, run, txn, login, moment, day, held, settled, closed)"
                     " VALUES (?1, ?2, ?3, ?4, ?5, ?6, ?7, ?8, ?9)",
    [UPDATE_TRANS] = "UPDATE trans SET held = ?1, settled = ?2, closed = ?3 WHERE host = ?4 AND run = ?5 AND txn = ?6",
    [FIND_USAGE] = "SELECT settled, reserved FROM usage WHERE login = ?1 AND day = ?2",
    [INSERT_USAGE] = "INSERT INTO usage (login, day, settled, reserved) VALUES (?1, ?2, ?3, ?4)",
    [UPDATE_USAGE] = "UPDATE usage SET settled = ?1, reserved = ?2 WHERE login = ?3 AND day = ?4",
    [FIND_CAP] = "SELECT day, cap FROM ceiling WHERE login = ?1 AND day <= ?2 ORDER BY day DESC LIMIT 1",
    [FIND_CEILING] = "SELECT day, cap FROM ceiling WHERE login = ?1 AND day = ?2",
    [INSERT_CEILING] = "INSERT INTO ceiling (login, day, cap) VALUES (?1, ?2, ?3)",
    [UPDATE_CEILING] = "UPDATE ceiling SET cap = ?1 WHERE login = ?2 AND day = ?3",
    [FIND_OVER] = "SELECT day, settled, reserved FROM usage WHERE login = ?1 AND day >= ?2",
    [NEXT_USAGE] = "SELECT login, settled, reserved FROM usage WHERE login > ?1 AND day = ?2 ORDER BY login LIMIT 1",
};

typedef struct {
    const uint8_t *at;
    int length;
} Text;

typedef struct {
    int kind;
    Text body, host, login;
    int64_t run, seq, txn, moment, count, day, cap;
} Request;

typedef struct {
    int found;
    int64_t held, settled, closed, moment, reserved;
    int is_of_login;
} Row;

typedef struct {
    uint8_t *at;
    size_t length, room;
} Buffer;

static sqlite3 *db;
static sqlite3_stmt *statements[STATEMENTS];

static void fail(const char *what) {
    fprintf(stderr, "twin: %s: %s\n", what, sqlite3_errmsg(db));
    exit(1);
}

static void *room_of(Buffer *buffer, size_t more) {
    if (buffer->room < buffer->length + more) {
        buffer->room = 2 * (buffer->length + more);
        buffer->at = realloc(buffer->at, buffer->room);
        if (!buffer->at) fail("out of memory");
    }
    void *at = buffer->at + buffer->length;
    buffer->length += more;
    return at;
}

static void push_number(Buffer *buffer, uint64_t number, int bytes) {
    uint8_t *at = room_of(buffer, bytes);
    for (int i = 0; i < bytes; i++) at[i] = number >> (8 * (bytes - 1 - i));
}

static void push_text(Buffer *buffer, Text text) {
    push_number(buffer, text.length, 1);
    memcpy(room_of(buffer, text.length), text.at, text.length);
}

static void push_id(Buffer *buffer, int kind, const Request *request) {
    push_number(buffer, kind, 1);
    push_text(buffer, request->host);
    push_number(buffer, request->run, 8);
    push_number(buffer, request->seq, 4);
}

/* Reading a request's fields. */

static int64_t take_number(const uint8_t **at, int bytes) {
    int64_t number = 0;
    while (bytes--) number = number << 8 | *(*at)++;
    return number;
}

static Text take_text(const uint8_t **at) {
    Text text = {*at + 1, **at};
    *at += 1 + text.length;
    return text;
}

static Request decode(Text body) {
    Request request = {.kind = body.at[0], .body = body};
    const uint8_t *at = body.at + 1;
    if (request.kind <= LIMIT) {
        request.host = take_text(&at);
        request.run = take_number(&at, 8);
        request.seq = take_number(&at, 4);
    }
    switch (request.kind) {
    case RESERVE:
    case SETTLE:
    case RELEASE:
        request.txn = take_number(&at, 4);
        request.moment = take_number(&at, 8);
        request.day = request.moment / DAY;
        request.login = take_text(&at);
        if (request.kind != RELEASE) request.count = take_number(&at, 4);
        break;
    case LIMIT:
        request.day = take_number(&at, 4);
        request.cap = take_number(&at, 4);
        request.login = take_text(&at);
        break;
    case USAGE:
        request.login = take_text(&at);
        request.day = take_number(&at, 4);
        break;
    default:
        request.day = take_number(&at, 4);
        request.login = take_text(&at);
    }
    return request;
}

/* Statements: bind, run, and set back. */

static sqlite3_stmt *bound_text(int which, int place, Text text) {
    sqlite3_bind_blob(statements[which], place, text.at, text.length, SQLITE_STATIC);
    return statements[which];
}

static sqlite3_stmt *bound(int which, int place, int64_t number) {
    sqlite3_bind_int64(statements[which], place, number);
    return statements[which];
}

static int step(int which) {
    int code = sqlite3_step(statements[which]);
    if (code != SQLITE_ROW && code != SQLITE_DONE) fail(TEXTS[which]);
    return code == SQLITE_ROW;
}

static void done(int which) {
    sqlite3_reset(statements[which]);
}

static void run(int which) {
    step(which);
    done(which);
}

/* The number in a column of the first row, or -1. */
static int64_t number_of(int which, int column) {
    int64_t number = step(which) ? sqlite3_column_int64(statements[which], column) : -1;
    done(which);
    return number;
}

static void bind_id(int which, const Request *request, int64_t last, int from) {
    bound_text(which, from, request->host);
    bound(which, from + 1, request->run);
    bound(which, from + 2, last);
}

static void bind_login(int which, Text login, int64_t day, int from) {
    bound_text(which, from, login);
    bound(which, from + 1, day);
}

static int64_t cap_of(Text login, int64_t day) {
    bind_login(FIND_CAP, login, day, 1);
    int64_t cap = number_of(FIND_CAP, 1);
    return cap < 0 ? DEFAULT_CAP : cap;
}

static Row usage_of(Text login, int64_t day) {
    bind_login(FIND_USAGE, login, day, 1);
    Row row = {.found = step(FIND_USAGE)};
    if (row.found) {
        row.settled = sqlite3_column_int64(statements[FIND_USAGE], 0);
        row.reserved = sqlite3_column_int64(statements[FIND_USAGE], 1);
    }
    done(FIND_USAGE);
    return row;
}

static Row transaction_of(const Request *request) {
    bind_id(FIND_TRANS, request, request->txn, 1);
    Row row = {.found = step(FIND_TRANS)};
    if (row.found) {
        sqlite3_stmt *found = statements[FIND_TRANS];
        row.is_of_login = sqlite3_column_bytes(found, 0) == request->login.length
                          && !memcmp(sqlite3_column_blob(found, 0), request->login.at, request->login.length);
        row.moment = sqlite3_column_int64(found, 1);
        row.held = sqlite3_column_int64(found, 3);
        row.settled = sqlite3_column_int64(found, 4);
        row.closed = sqlite3_column_int64(found, 5);
    }
    done(FIND_TRANS);
    return row;
}

static void write_transaction(const Request *request, Row row) {
    if (row.found) {
        bound(UPDATE_TRANS, 1, row.held);
        bound(UPDATE_TRANS, 2, row.settled);
        bound(UPDATE_TRANS, 3, row.closed);
        bind_id(UPDATE_TRANS, request, request->txn, 4);
        run(UPDATE_TRANS);
        return;
    }
    bind_id(INSERT_TRANS, request, request->txn, 1);
    bound_text(INSERT_TRANS, 4, request->login);
    bound(INSERT_TRANS, 5, request->moment);
    bound(INSERT_TRANS, 6, request->day);
    bound(INSERT_TRANS, 7, row.held);
    bound(INSERT_TRANS, 8, row.settled);
    bound(INSERT_TRANS, 9, row.closed);
    run(INSERT_TRANS);
}

static void write_usage(const Request *request, Row row) {
    int which = row.found ? UPDATE_USAGE : INSERT_USAGE;
    bind_login(which, request->login, request->day, row.found ? 3 : 1);
    bound(which, row.found ? 1 : 3, row.settled);
    bound(which, row.found ? 2 : 4, row.reserved);
    run(which);
}

static void write_ceiling(const Request *request, int is_there) {
    int which = is_there ? UPDATE_CEILING : INSERT_CEILING;
    bind_login(which, request->login, request->day, is_there ? 2 : 1);
    bound(which, is_there ? 1 : 3, request->cap);
    run(which);
}

/* What is replied, and what is written with it once the answer is. */

static int is_moved(int reply) {
    return reply == GRANTED || reply == SETTLED || reply == RELEASED;
}

static int reply_of_transaction(const Request *request, Row row, Row usage, Buffer *replies) {
    int64_t used = usage.settled + usage.reserved;
    int64_t cap = request->kind == RESERVE ? cap_of(request->login, request->day) : 0;
    int reply = row.found && (!row.is_of_login || row.moment != request->moment) ? MISMATCH
                : row.closed                                                     ? CLOSED
                : request->kind == RESERVE ? (used + request->count > cap ? FULL : GRANTED)
                : request->kind == SETTLE  ? (request->count > row.held ? TOO_MANY : SETTLED)
                                           : RELEASED;
    push_id(replies, reply, request);
    if (reply == GRANTED) push_number(replies, used + request->count, 4);
    if (reply == FULL) push_number(replies, used, 4), push_number(replies, cap, 4);
    if (reply == SETTLED) push_number(replies, request->count, 4);
    if (reply == RELEASED || reply == TOO_MANY) push_number(replies, row.held, 4);
    return reply;
}

static void write_moved(const Request *request, Row row, Row usage, int reply) {
    int64_t held = row.held;
    if (reply == GRANTED) {
        row.held += request->count;
        usage.reserved += request->count;
    } else if (is_moved(reply)) {
        row.held = 0;
        row.closed = 1;
        row.settled = request->count;
        usage.reserved -= held;
        usage.settled += request->count;
    }
    if (!row.found || is_moved(reply)) write_transaction(request, row);
    if (reply == GRANTED || (is_moved(reply) && held)) write_usage(request, usage);
}

static int reply_of_limit(const Request *request, Buffer *replies) {
    int64_t first = -1, first_used = 0;
    bind_login(FIND_OVER, request->login, request->day, 1);
    while (step(FIND_OVER)) {
        sqlite3_stmt *found = statements[FIND_OVER];
        int64_t day = sqlite3_column_int64(found, 0);
        int64_t used = sqlite3_column_int64(found, 1) + sqlite3_column_int64(found, 2);
        if (used > request->cap && (first < 0 || day < first)) first = day, first_used = used;
    }
    done(FIND_OVER);
    push_id(replies, first < 0 ? LIMIT_SET : OVER, request);
    if (first >= 0) push_number(replies, first, 4), push_number(replies, first_used, 4);
    return first >= 0;
}

static void append_answer(const Request *request, int64_t arrivals, Text reply) {
    bound(APPEND_ANSWER, 1, arrivals);
    bind_id(APPEND_ANSWER, request, request->seq, 2);
    bound_text(APPEND_ANSWER, 5, request->body);
    bound_text(APPEND_ANSWER, 6, reply);
    run(APPEND_ANSWER);
    bound(SET_ARRIVALS, 1, arrivals);
    run(SET_ARRIVALS);
}

/* The reply of a number that was answered: the stored one, or Conflict. */
static int is_repeat(const Request *request, Buffer *replies) {
    bind_id(FIND_ANSWER, request, request->seq, 1);
    int is_there = step(FIND_ANSWER);
    if (is_there) {
        sqlite3_stmt *found = statements[FIND_ANSWER];
        const void *kept = sqlite3_column_blob(found, 1);
        if (sqlite3_column_bytes(found, 1) == request->body.length && !memcmp(kept, request->body.at, request->body.length)) {
            const void *reply = sqlite3_column_blob(found, 2);
            int length = sqlite3_column_bytes(found, 2);
            memcpy(room_of(replies, length), reply, length);
        } else {
            push_id(replies, CONFLICT, request);
        }
    }
    done(FIND_ANSWER);
    return is_there;
}

static void answer_numbered(const Request *request, Buffer *replies) {
    size_t from = replies->length;
    run(BEGIN);
    if (!is_repeat(request, replies)) {
        int64_t arrivals = number_of(ARRIVALS, 0) + 1;
        if (request->kind == LIMIT) {
            int is_over = reply_of_limit(request, replies);
            bind_login(FIND_CEILING, request->login, request->day, 1);
            int is_there = number_of(FIND_CEILING, 1) >= 0;
            append_answer(request, arrivals, (Text){replies->at + from, replies->length - from});
            if (!is_over) write_ceiling(request, is_there);
        } else {
            Row row = transaction_of(request), usage = usage_of(request->login, request->day);
            int reply = reply_of_transaction(request, row, usage, replies);
            append_answer(request, arrivals, (Text){replies->at + from, replies->length - from});
            write_moved(request, row, usage, reply);
        }
    }
    run(COMMIT);
}

static void push_row(Buffer *replies, Row row, Text login, int64_t day) {
    push_number(replies, row.settled, 4);
    push_number(replies, row.reserved, 4);
    push_number(replies, cap_of(login, day), 4);
}

static void answer_usage(const Request *request, Buffer *replies) {
    run(BEGIN);
    push_number(replies, USAGE_OF, 1);
    push_text(replies, request->login);
    push_number(replies, request->day, 4);
    push_row(replies, usage_of(request->login, request->day), request->login, request->day);
    run(COMMIT);
}

static void answer_list(const Request *request, Buffer *replies) {
    uint8_t name[255];
    Text login = {name, request->login.length};
    int64_t rows = 0;
    run(BEGIN);
    memcpy(name, request->login.at, login.length);
    push_number(replies, LIST_OF, 1);
    push_number(replies, request->day, 4);
    push_number(replies, 0, 1);
    size_t count_at = replies->length - 1;
    for (; rows < PAGE; rows++) {
        sqlite3_stmt *found = statements[NEXT_USAGE];
        bind_login(NEXT_USAGE, login, request->day, 1);
        if (!step(NEXT_USAGE)) break;
        Row row = {.settled = sqlite3_column_int64(found, 1), .reserved = sqlite3_column_int64(found, 2)};
        login.length = sqlite3_column_bytes(found, 0);
        memcpy(name, sqlite3_column_blob(found, 0), login.length);
        done(NEXT_USAGE);
        push_text(replies, login);
        push_row(replies, row, login, request->day);
    }
    done(NEXT_USAGE);
    replies->at[count_at] = rows;
    run(COMMIT);
}

static void answer(Text body, Buffer *replies) {
    Request request = decode(body);
    size_t from = replies->length;
    push_number(replies, 0, 2);
    if (request.kind <= LIMIT) {
        /* The answer's row keeps the reply's body alone. */
        Buffer reply = {0};
        answer_numbered(&request, &reply);
        memcpy(room_of(replies, reply.length), reply.at, reply.length);
        free(reply.at);
    } else if (request.kind == USAGE) {
        answer_usage(&request, replies);
    } else {
        answer_list(&request, replies);
    }
    size_t length = replies->length - from - 2;
    replies->at[from] = length >> 8;
    replies->at[from + 1] = length;
}

static void open_store(const char *path, int is_new) {
    if (sqlite3_open(path, &db)) fail(path);
    const char *pragmas = "PRAGMA locking_mode = EXCLUSIVE; PRAGMA journal_mode = WAL; PRAGMA synchronous = FULL;"
                          " PRAGMA foreign_keys = ON; PRAGMA wal_autocheckpoint = 1000; PRAGMA cache_size = 2000";
    if (sqlite3_exec(db, pragmas, 0, 0, 0)) fail("pragmas");
    for (size_t i = 0; is_new && i < sizeof TABLES / sizeof *TABLES; i++)
        if (sqlite3_exec(db, TABLES[i], 0, 0, 0)) fail(TABLES[i]);
    for (int i = 0; i < STATEMENTS; i++)
        if (sqlite3_prepare_v3(db, TEXTS[i], -1, SQLITE_PREPARE_PERSISTENT, &statements[i], 0)) fail(TEXTS[i]);
}

int main(int count, char **words) {
    if (count < 2) return 2;
    open_store(words[1], count > 2 && !strcmp(words[2], "--create"));
    printf("ready\n");
    fflush(stdout);
    Buffer batch = {0}, replies = {0};
    uint8_t head[4];
    while (fread(head, 1, 4, stdin) == 4) {
        const uint8_t *at = head;
        size_t length = take_number(&at, 4);
        batch.length = replies.length = 0;
        if (fread(room_of(&batch, length), 1, length, stdin) != length) return 1;
        push_number(&replies, 0, 4);
        for (at = batch.at; at < batch.at + length;) {
            int size = take_number(&at, 2);
            answer((Text){at, size}, &replies);
            at += size;
        }
        for (int i = 0; i < 4; i++) replies.at[i] = (replies.length - 4) >> (8 * (3 - i));
        fwrite(replies.at, 1, replies.length, stdout);
        fflush(stdout);
    }
    for (int i = 0; i < STATEMENTS; i++) sqlite3_finalize(statements[i]);
    sqlite3_close(db);
    return 0;
}
