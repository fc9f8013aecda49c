// Writes into a book's file what bench/keep/keep.rattle writes, over the C library of SQLite: the same rows, of the same lengths,
// in the same transactions, the journal in mode WAL with synchronous FULL. It makes no braille: the cells of a paragraph are
// as many bytes as its braille has.
//   keep FILE COUNT TIMES     types COUNT paragraphs and times TIMES commands of each kind
//   keep read FILE            times the reading of all rows, each text in a piece of memory of its own
#include <sqlite3.h>
#include <stdio.h>
#include <stdlib.h>
#include <string.h>
#include <time.h>

enum { TEXT_ROOM = 200, COLUMNS = 8 };

static sqlite3 *db;
static sqlite3_stmt *put_para, *put_cache, *put_entry, *set_print, *put_mark, *set_version;
static long version;

static void need(int holds) {
    if (holds) return;
    fprintf(stderr, "keep: %s\n", sqlite3_errmsg(db));
    exit(1);
}

static void run(const char *sql) { need(sqlite3_exec(db, sql, 0, 0, 0) == SQLITE_OK); }

static sqlite3_stmt *prepared(const char *sql) {
    sqlite3_stmt *statement = NULL;
    need(sqlite3_prepare_v2(db, sql, -1, &statement, 0) == SQLITE_OK);
    return statement;
}

static void step(sqlite3_stmt *statement) {
    need(sqlite3_step(statement) == SQLITE_DONE);
    sqlite3_reset(statement);
}

static void bind_text(sqlite3_stmt *statement, int at, const char *text, int length) {
    sqlite3_bind_text(statement, at, text, length, SQLITE_STATIC);
}

static void bind_cells(long id, int length) {
    static char cells[TEXT_ROOM];
    sqlite3_bind_int64(put_cache, 1, id);
    sqlite3_bind_blob(put_cache, 2, cells, length, SQLITE_STATIC);
    step(put_cache);
}

static int print_of(char *text, long id) {
    return snprintf(text, TEXT_ROOM,
        "Paragraph %ld. It was the best of times, it was the worst of times, it was the age of wisdom.", id);
}

// one number sign and two signs of capitals stand beside the characters
enum { SIGNS = 3 };

static void begin(void) { run("BEGIN"); }

static void commit(void) {
    sqlite3_bind_int64(set_version, 1, 1);
    sqlite3_bind_int64(set_version, 2, ++version);
    step(set_version);
    run("COMMIT");
}

static void type(long id) {
    char text[TEXT_ROOM];
    int length = print_of(text, id);
    begin();
    sqlite3_bind_int64(put_para, 1, id);
    sqlite3_bind_int64(put_para, 2, id);
    bind_text(put_para, 3, "en", 2);
    bind_text(put_para, 4, text, length);
    bind_text(put_para, 5, text, length);
    for (int at = 6; at <= COLUMNS; at++) sqlite3_bind_int64(put_para, at, 0);
    step(put_para);
    bind_cells(id, length + SIGNS);
    commit();
}

static void correct(long id, long seq) {
    char text[TEXT_ROOM];
    int length = print_of(text, id);
    text[0] = 'p';
    begin();
    sqlite3_bind_int64(put_entry, 1, id);
    sqlite3_bind_int64(put_entry, 2, seq);
    sqlite3_bind_int64(put_entry, 3, 0);
    sqlite3_bind_int64(put_entry, 4, 0);
    sqlite3_bind_int64(put_entry, 5, 1);
    bind_text(put_entry, 6, "p", 1);
    bind_text(put_entry, 7, "Ann", 3);
    step(put_entry);
    sqlite3_bind_int64(set_print, 1, id);
    bind_text(set_print, 2, text, length);
    step(set_print);
    bind_cells(id, length + SIGNS - 1);
    commit();
}

static void mark(long id, long para) {
    begin();
    sqlite3_bind_int64(put_mark, 1, id);
    sqlite3_bind_int64(put_mark, 2, para);
    sqlite3_bind_int64(put_mark, 3, 0);
    sqlite3_bind_int64(put_mark, 4, 1);
    bind_text(put_mark, 5, "look", 4);
    sqlite3_bind_int64(put_mark, 6, 0);
    sqlite3_bind_int64(put_mark, 7, 0);
    step(put_mark);
    commit();
}

static long micros(void) {
    struct timespec now;
    clock_gettime(CLOCK_MONOTONIC, &now);
    return now.tv_sec * 1000000L + now.tv_nsec / 1000;
}

static void time_keeping(long count, long times) {
    put_para = prepared("INSERT INTO para VALUES (?1, ?2, ?3, ?4, ?5, ?6, ?7, ?8) ON CONFLICT (id) DO UPDATE SET place = ?2, tab = ?3, "
        "original = ?4, print = ?5, style = ?6, volume = ?7, struck = ?8");
    put_cache = prepared("INSERT INTO cache VALUES (?1, ?2) ON CONFLICT (para) DO UPDATE SET cells = ?2");
    put_entry = prepared("INSERT INTO corr2 VALUES (?1, ?2, ?3, ?4, ?5, ?6, ?7)");
    set_print = prepared("UPDATE para SET print = ?2 WHERE id = ?1");
    put_mark = prepared("INSERT INTO mark VALUES (?1, ?2, ?3, ?4, ?5, ?6, ?7) ON CONFLICT (id) DO UPDATE SET para = ?2, start = ?3, "
        "stop = ?4, note = ?5, touched = ?6, resolved = ?7");
    set_version = prepared("UPDATE book SET version = ?2 WHERE id = ?1");
    for (long id = 1; id <= count; id++) type(id);
    long start = micros();
    for (long k = 1; k <= times; k++) type(count + k);
    printf("type %ld\n", micros() - start);
    start = micros();
    for (long k = 0; k < times; k++) correct(k % count + 1, k / count + 1);
    printf("correct %ld\n", micros() - start);
    start = micros();
    for (long k = 0; k < times; k++) mark(k + 1, k % count + 1);
    printf("mark %ld\n", micros() - start);
}

static const char *const READS[] = {
    "SELECT id, format, version FROM book ORDER BY id", "SELECT rowid, name, body FROM tab ORDER BY name",
    "SELECT id, place, tab, original, print, style, volume, struck FROM para ORDER BY id",
    "SELECT para, seq, kind, start, len, body, who FROM corr2 ORDER BY para, seq",
    "SELECT id, para, start, stop, note, touched, resolved FROM mark ORDER BY id", "SELECT para, cells FROM cache ORDER BY para",
};

// The values of a row; each that isn't a number is copied. The copies stay, as those of a book that is held would.
static void copy_row(sqlite3_stmt *query) {
    for (int at = 0; at < sqlite3_column_count(query); at++) {
        if (sqlite3_column_type(query, at) == SQLITE_INTEGER) continue;
        size_t length = sqlite3_column_bytes(query, at);
        char *copy = malloc(length + 1);
        if (!copy) exit(1);
        if (length) memcpy(copy, sqlite3_column_blob(query, at), length);
    }
}

static void time_reading(void) {
    long start = micros(), rows = 0;
    for (size_t at = 0; at < sizeof READS / sizeof *READS; at++) {
        sqlite3_stmt *query = prepared(READS[at]);
        int told;
        while ((told = sqlite3_step(query)) == SQLITE_ROW) {
            copy_row(query);
            rows++;
        }
        need(told == SQLITE_DONE);
        sqlite3_finalize(query);
    }
    printf("read %ld\nrows %ld\n", micros() - start, rows);
}

int main(int argc, char **argv) {
    int reads = argc == 3 && !strcmp(argv[1], "read");
    if (!reads && argc != 4) {
        fprintf(stderr, "keep FILE COUNT TIMES | keep read FILE\n");
        return 1;
    }
    need(sqlite3_open(reads ? argv[2] : argv[1], &db) == SQLITE_OK);
    run("PRAGMA journal_mode = WAL; PRAGMA synchronous = FULL");
    if (reads) time_reading();
    else time_keeping(atol(argv[2]), atol(argv[3]));
    return 0;
}
