// Puts the rows of a book's file as the commands of bench/session/session.sh make them, over the C library of SQLite: a transaction to a
// command, with the statements of desk_store, the journal in mode WAL and synchronous FULL. Nothing is checked or answered.
//   session FILE type COUNT FIRST      types the paragraphs from the number FIRST on, in a new file where that is 1
//   session FILE correct COUNT SIZE    corrects the first two characters of one paragraph after the other in a book of that size
#include <sqlite3.h>
#include <stdio.h>
#include <stdlib.h>
#include <string.h>

enum { LENGTH = 100 };

static sqlite3 *db;
static sqlite3_stmt *begin, *commit, *set_version, *put_para, *set_print, *put_cache, *put_entry;

static void need(int holds) {
    if (holds) return;
    fprintf(stderr, "session: %s\n", sqlite3_errmsg(db));
    exit(1);
}

static void run(const char *sql) { need(sqlite3_exec(db, sql, 0, 0, 0) == SQLITE_OK); }

static sqlite3_stmt *prepared(const char *sql) {
    sqlite3_stmt *statement = NULL;
    need(sqlite3_prepare_v2(db, sql, -1, &statement, 0) == SQLITE_OK);
    return statement;
}

static void step(sqlite3_stmt *statement) {
    need(sqlite3_step(statement) == SQLITE_DONE);
    sqlite3_reset(statement);
}

static void number(sqlite3_stmt *statement, int at, long value) { sqlite3_bind_int64(statement, at, value); }

static void text(sqlite3_stmt *statement, int at, const char *value) {
    sqlite3_bind_text(statement, at, value, -1, SQLITE_STATIC);
}

static void open_file(const char *file, int is_new) {
    need(sqlite3_open(file, &db) == SQLITE_OK);
    run("PRAGMA journal_mode = WAL; PRAGMA synchronous = FULL");
    if (is_new) {
        run("CREATE TABLE book (id INTEGER NOT NULL PRIMARY KEY, format INTEGER NOT NULL, version INTEGER NOT NULL) STRICT;"
            "CREATE TABLE tab (name TEXT NOT NULL PRIMARY KEY, body BLOB NOT NULL) STRICT;"
            "CREATE TABLE para (id INTEGER NOT NULL PRIMARY KEY, place INTEGER NOT NULL, tab TEXT NOT NULL, original TEXT NOT "
            "NULL, print TEXT NOT NULL, style INTEGER NOT NULL, volume INTEGER NOT NULL, struck INTEGER NOT NULL) STRICT;"
            "CREATE TABLE mark (id INTEGER NOT NULL PRIMARY KEY, para INTEGER NOT NULL, start INTEGER NOT NULL, stop INTEGER "
            "NOT NULL, note TEXT NOT NULL, touched INTEGER NOT NULL, resolved INTEGER NOT NULL) STRICT;"
            "CREATE TABLE cache (para INTEGER NOT NULL PRIMARY KEY, cells BLOB NOT NULL) STRICT;"
            "CREATE TABLE corr2 (para INTEGER NOT NULL, seq INTEGER NOT NULL, kind INTEGER NOT NULL, start INTEGER NOT NULL, "
            "len INTEGER NOT NULL, body TEXT NOT NULL, who TEXT NOT NULL, PRIMARY KEY (para, seq)) STRICT;"
            "INSERT INTO book VALUES (1, 2, 1)");
    }
    begin = prepared("BEGIN");
    commit = prepared("COMMIT");
    set_version = prepared("UPDATE book SET version = version + 1 WHERE id = 1");
    put_para = prepared("INSERT INTO para VALUES (?1, ?2, ?3, ?4, ?5, ?6, ?7, ?8) ON CONFLICT (id) DO UPDATE SET place = ?2, "
                        "tab = ?3, original = ?4, print = ?5, style = ?6, volume = ?7, struck = ?8");
    set_print = prepared("UPDATE para SET print = ?2 WHERE id = ?1");
    put_cache = prepared("INSERT INTO cache VALUES (?1, ?2) ON CONFLICT (para) DO UPDATE SET cells = ?2");
    put_entry = prepared("INSERT INTO corr2 VALUES (?1, ?2, ?3, ?4, ?5, ?6, ?7)");
}

// The print of a paragraph: its number in letters, and the same words in each.
static void print_of(char *print, long id) {
    snprintf(print, LENGTH, "paragraph %06ld it was the best of times it was the worst of times it was the age", id);
    for (char *digit = print + 10; digit < print + 16; digit++) *digit += 'a' - '0';
}

static void put_cells(long id, const char *print) {
    static const unsigned char masks[] = {1,  3,  9,  25, 17, 11, 27, 19, 10, 26, 5,  7,  13,
                                          29, 21, 15, 31, 23, 14, 30, 37, 39, 58, 45, 61, 53};
    unsigned char cells[LENGTH];
    int length = (int)strlen(print);
    for (int at = 0; at < length; at++) cells[at] = print[at] == ' ' ? 0 : masks[print[at] - 'a'];
    number(put_cache, 1, id);
    sqlite3_bind_blob(put_cache, 2, cells, length, SQLITE_STATIC);
    step(put_cache);
}

static void type(long id) {
    char print[LENGTH];
    print_of(print, id);
    step(begin);
    step(set_version);
    number(put_para, 1, id);
    number(put_para, 2, id);
    text(put_para, 3, "en");
    text(put_para, 4, print);
    text(put_para, 5, print);
    number(put_para, 6, 0);
    number(put_para, 7, 0);
    number(put_para, 8, 0);
    step(put_para);
    put_cells(id, print);
    step(commit);
}

static void correct(long id, long seq) {
    char print[LENGTH], two[] = {'a' + seq % 26, 'z', 0};
    print_of(print, id);
    memcpy(print, two, 2);
    step(begin);
    step(set_version);
    number(put_entry, 1, id);
    number(put_entry, 2, seq);
    number(put_entry, 3, 0);
    number(put_entry, 4, 0);
    number(put_entry, 5, 2);
    text(put_entry, 6, two);
    text(put_entry, 7, "");
    step(put_entry);
    number(set_print, 1, id);
    text(set_print, 2, print);
    step(set_print);
    put_cells(id, print);
    step(commit);
}

int main(int argc, char **argv) {
    if (argc != 5 || (strcmp(argv[2], "type") && strcmp(argv[2], "correct"))) {
        fprintf(stderr, "session FILE type COUNT FIRST | session FILE correct COUNT SIZE\n");
        return 1;
    }
    long count = atol(argv[3]), other = atol(argv[4]);
    int types = !strcmp(argv[2], "type");
    open_file(argv[1], types && other == 1);
    for (long at = 0; at < count; at++) {
        if (types) type(other + at);
        else correct(at % other + 1, at / other + 1);
    }
    sqlite3_finalize(begin);
    sqlite3_finalize(commit);
    sqlite3_finalize(set_version);
    sqlite3_finalize(put_para);
    sqlite3_finalize(set_print);
    sqlite3_finalize(put_cache);
    sqlite3_finalize(put_entry);
    need(sqlite3_close(db) == SQLITE_OK);
    return 0;
}
