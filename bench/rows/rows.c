// Puts paragraphs into a file as bench/rows/rows.rattle does, and reads them as often as asked, over the C library of
// SQLite: the same statements with the same parameters, a hundred rows to a transaction, the journal in mode WAL with
// synchronous FULL. What is read is kept in memory, each text in a piece of its own.
//   rows put FILE COUNT     rows read FILE TIMES
#include <sqlite3.h>
#include <stdio.h>
#include <stdlib.h>
#include <string.h>

enum { TOGETHER = 100 };

typedef struct {
    sqlite3_int64 id, place, style, volume, struck;
    char *tab, *original, *print;
} Para;

static void need(int holds, sqlite3 *db) {
    if (holds) return;
    fprintf(stderr, "rows: %s\n", db ? sqlite3_errmsg(db) : "no memory");
    exit(1);
}

static sqlite3 *opened(const char *file) {
    sqlite3 *db = NULL;
    need(sqlite3_open(file, &db) == SQLITE_OK, db);
    need(sqlite3_exec(db, "PRAGMA journal_mode = WAL; PRAGMA synchronous = FULL", 0, 0, 0) == SQLITE_OK, db);
    return db;
}

static sqlite3_stmt *prepared(sqlite3 *db, const char *sql) {
    sqlite3_stmt *statement = NULL;
    need(sqlite3_prepare_v2(db, sql, -1, &statement, 0) == SQLITE_OK, db);
    return statement;
}

static void put(sqlite3 *db, long count) {
    char text[200];
    sqlite3_stmt *insert = prepared(db,
        "INSERT INTO para VALUES (?1, ?2, ?3, ?4, ?5, ?6, ?7, ?8) ON CONFLICT (id) DO UPDATE SET "
        "place = excluded.place, tab = excluded.tab, original = excluded.original, print = excluded.print, "
        "style = excluded.style, volume = excluded.volume, struck = excluded.struck");
    for (long id = 1; id <= count; id++) {
        if (id % TOGETHER == 1) need(sqlite3_exec(db, "BEGIN", 0, 0, 0) == SQLITE_OK, db);
        int length = snprintf(text, sizeof text,
            "Paragraph %ld. It was the best of times, it was the worst of times, it was the age of wisdom.", id);
        sqlite3_bind_int64(insert, 1, id);
        sqlite3_bind_int64(insert, 2, id);
        sqlite3_bind_text(insert, 3, "en", 2, SQLITE_STATIC);
        sqlite3_bind_text(insert, 4, text, length, SQLITE_STATIC);
        sqlite3_bind_text(insert, 5, text, length, SQLITE_STATIC);
        sqlite3_bind_int64(insert, 6, 0);
        sqlite3_bind_int64(insert, 7, 0);
        sqlite3_bind_int64(insert, 8, 0);
        need(sqlite3_step(insert) == SQLITE_DONE, db);
        sqlite3_reset(insert);
        if (id % TOGETHER == 0 || id == count) need(sqlite3_exec(db, "COMMIT", 0, 0, 0) == SQLITE_OK, db);
    }
    sqlite3_finalize(insert);
}

static char *text_at(sqlite3_stmt *query, int at) {
    size_t length = sqlite3_column_bytes(query, at);
    char *copy = malloc(length + 1);
    need(copy != NULL, NULL);
    memcpy(copy, sqlite3_column_text(query, at), length + 1);
    return copy;
}

static long read_all(sqlite3 *db) {
    sqlite3_stmt *query =
        prepared(db, "SELECT id, place, tab, original, print, style, volume, struck FROM para ORDER BY id");
    long count = 0, room = 0;
    Para *paras = NULL;
    int step;
    while ((step = sqlite3_step(query)) == SQLITE_ROW) {
        if (count == room) {
            room = room ? 2 * room : 4;
            paras = realloc(paras, room * sizeof *paras);
            need(paras != NULL, NULL);
        }
        paras[count++] = (Para){
            .id = sqlite3_column_int64(query, 0), .place = sqlite3_column_int64(query, 1),
            .tab = text_at(query, 2), .original = text_at(query, 3), .print = text_at(query, 4),
            .style = sqlite3_column_int64(query, 5), .volume = sqlite3_column_int64(query, 6),
            .struck = sqlite3_column_int64(query, 7),
        };
    }
    need(step == SQLITE_DONE, db);
    sqlite3_finalize(query);
    for (long at = 0; at < count; at++) {
        free(paras[at].tab);
        free(paras[at].original);
        free(paras[at].print);
    }
    free(paras);
    return count;
}

int main(int argc, char **argv) {
    if (argc != 4 || (strcmp(argv[1], "put") && strcmp(argv[1], "read"))) {
        fprintf(stderr, "rows put FILE COUNT | rows read FILE TIMES\n");
        return 1;
    }
    sqlite3 *db = opened(argv[2]);
    long number = atol(argv[3]), count = 0;
    if (!strcmp(argv[1], "put")) put(db, number);
    else {
        for (long k = 0; k < number; k++) count = read_all(db);
        printf("%ld\n", count);
    }
    need(sqlite3_close(db) == SQLITE_OK, db);
    return 0;
}
