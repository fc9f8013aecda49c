#!/bin/bash
# Compares files with sqlite3: a file that make_tables and write made is shown by sqlite3 with the same rows and
# declarations, and a file that sqlite3 made is read here with the same rows. Of a file with other things under the names of the tables
# the same ones are there for both: tables and views, but no indexes and no triggers. Files of a book that sqlite3 made, in either
# format, with the tables declared as in a new file and otherwise, show the same book here, and sqlite3 reads what opening made of them.
#   tests/comparisons/sqlite3.sh                 runs the tests of tests/trials/sqlite, which make and show the files, over them
#   tests/comparisons/sqlite3.sh FOLDER          makes the files of sqlite3 in the folder, which is empty
#   tests/comparisons/sqlite3.sh FOLDER LOG      compares with these what the tests printed
set -eu
cd "$(dirname "$0")/../.."
[ $# -gt 0 ] || exec tests/trials/trials.sh sqlite
fail() { echo "tests/comparisons/sqlite3.sh: $*" >&2; exit 1; }
tests/needs.sh sqlite3
scratch=$1

# how a new file declares the six tables
declarations='CREATE TABLE book (id INTEGER NOT NULL PRIMARY KEY, format INTEGER NOT NULL, version INTEGER NOT NULL) STRICT;
CREATE TABLE tab (name TEXT NOT NULL PRIMARY KEY, body BLOB NOT NULL) STRICT;
CREATE TABLE para (id INTEGER NOT NULL PRIMARY KEY, place INTEGER NOT NULL, tab TEXT NOT NULL, original TEXT NOT NULL, print TEXT NOT NULL, style INTEGER NOT NULL, volume INTEGER NOT NULL, struck INTEGER NOT NULL) STRICT;
CREATE TABLE mark (id INTEGER NOT NULL PRIMARY KEY, para INTEGER NOT NULL, start INTEGER NOT NULL, stop INTEGER NOT NULL, note TEXT NOT NULL, touched INTEGER NOT NULL, resolved INTEGER NOT NULL) STRICT;
CREATE TABLE cache (para INTEGER NOT NULL PRIMARY KEY, cells BLOB NOT NULL) STRICT;
CREATE TABLE corr2 (para INTEGER NOT NULL, seq INTEGER NOT NULL, kind INTEGER NOT NULL, start INTEGER NOT NULL, len INTEGER NOT NULL, body TEXT NOT NULL, who TEXT NOT NULL, PRIMARY KEY (para, seq)) STRICT;'

# the rows of a file, as the program shows them
rows() { # FILE
    sqlite3 -batch -bail -init /dev/null "$1" "
        SELECT 'book', quote(id), quote(format), quote(version) FROM book ORDER BY id;
        SELECT 'tab', rowid, quote(name), quote(body) FROM tab ORDER BY name;
        SELECT 'para', quote(id), quote(place), quote(tab), quote(original), quote(print), quote(style), quote(volume),
            quote(struck) FROM para ORDER BY id;
        SELECT 'corr2', quote(para), quote(seq), quote(kind), quote(start), quote(len), quote(body), quote(who)
            FROM corr2 ORDER BY para, seq;
        SELECT 'mark', quote(id), quote(para), quote(start), quote(stop), quote(note), quote(touched), quote(resolved)
            FROM mark ORDER BY id;
        SELECT 'cache', quote(para), quote(cells) FROM cache ORDER BY para;"
}
# the columns and keys of the six tables
columns() { # FILE
    local table
    for table in book tab para mark cache corr2; do
        sqlite3 -batch -bail -init /dev/null "$1" "PRAGMA table_info($table); PRAGMA index_list($table);"
    done
}
same() { # WHAT EXPECTED FOUND
    diff "$2" "$3" > "$scratch/diff" || { cat "$scratch/diff" >&2; fail "$1 differ (< expected, > found)"; }
    echo "ok  $1"
}
# which tables and views of these names are there
there() { # FILE
    local table
    for table in book tab para corr mark cache corr2; do
        sqlite3 -batch -bail -init /dev/null "$1" \
            "SELECT '$table' FROM sqlite_schema WHERE type IN ('table', 'view') AND name = '$table' COLLATE NOCASE"
    done
}

make_files() {
    # a file that sqlite3 makes, with other things beside the six tables
    sqlite3 -batch -bail -init /dev/null "$scratch/other.db" "$declarations
        CREATE TABLE note (id INTEGER PRIMARY KEY, para INTEGER REFERENCES para ON DELETE CASCADE, body TEXT);
        CREATE INDEX note_by_para ON note (para);
        CREATE VIEW heading AS SELECT id, print FROM para WHERE style = 1;
        INSERT INTO book VALUES (1, 1, 9007199254740993), (-2, -9223372036854775808, 0);
        INSERT INTO tab VALUES ('zz', X'00FF80'), ('en', CAST('letter a 1' AS BLOB)), ('ä⠁𝔘', X'');
        INSERT INTO para VALUES (3, 1, 'en', 'it''s', 'it' || char(10) || 's ⠏', 1, 0, 0), (-4, 2, '', '', '', -1, 255, 65536);
        INSERT INTO corr2 VALUES (3, 2, 0, 1, 1, 'ß', 'Ann'), (3, 1, 1, 0, 0, '', ''), (-4, 1, 0, -1, -128, '|', '⠁');
        INSERT INTO cache VALUES (3, X'0F00FF'), (-4, X'');
        INSERT INTO mark VALUES (2, 3, 0, 2, 'look', 0, 1), (1, -4, 9223372036854775807, 0, '', 1, 0);
        INSERT INTO note VALUES (1, 3, 'beside');"

    # a file with two tables and a view of these names, in other letters, and an index, a trigger and a column with others
    sqlite3 -batch -bail -init /dev/null "$scratch/names.db" "
        CREATE TABLE note (id INTEGER PRIMARY KEY, mark TEXT);
        CREATE TABLE BOOK (id INTEGER PRIMARY KEY);
        CREATE TABLE Tab (name TEXT);
        CREATE VIEW para AS SELECT id FROM note;
        CREATE INDEX corr ON note (mark);
        CREATE TRIGGER cache AFTER INSERT ON note BEGIN DELETE FROM note WHERE id < NEW.id; END;"

    # files of one book: in the second format; in the first without its braille, both beside other tables; and the same two with the tables
    # declared otherwise, without STRICT and with a further column
    book="INSERT INTO tab VALUES ('t', CAST('letter a 17' || char(10) || 'letter b 27' AS BLOB));
        INSERT INTO para (id, place, tab, original, print, style, volume, struck) VALUES
            (1, 2, 't', 'ab', 'aab', 0, 0, 0), (2, 1, 't', 'ba', 'ba', 1, 1, 1);
        INSERT INTO mark VALUES (1, 1, 0, 2, 'look', 1, 0);"
    named="INSERT INTO book VALUES (1, 2, 7);
        INSERT INTO corr2 VALUES (1, 1, 0, 0, 1, 'aa', ''), (1, 2, 0, 3, 0, 'b', ''), (1, 3, 1, 2, 0, '', '');
        INSERT INTO cache VALUES (1, CAST('AAB' AS BLOB)), (2, CAST('BA' AS BLOB));"
    unnamed="CREATE TABLE corr (para INTEGER NOT NULL, seq INTEGER NOT NULL, kind INTEGER NOT NULL, start INTEGER NOT NULL, len INTEGER NOT NULL, body TEXT NOT NULL, PRIMARY KEY (para, seq)) STRICT;
        INSERT INTO book VALUES (1, 1, 7);
        INSERT INTO corr VALUES (1, 1, 0, 0, 1, 'aa'), (1, 2, 0, 3, 0, 'b'), (1, 3, 1, 2, 0, '');
        DROP TABLE cache; DROP TABLE corr2;"
    beside="CREATE TABLE note (id INTEGER PRIMARY KEY, para INTEGER REFERENCES para ON DELETE CASCADE, body TEXT);
        CREATE INDEX note_by_para ON note (para);
        CREATE VIEW heading AS SELECT id, print FROM para WHERE style = 1;
        INSERT INTO note VALUES (1, 1, 'beside');"
    otherwise=$(sed -e 's/ STRICT;/;/' -e 's/struck INTEGER NOT NULL/struck INTEGER, further TEXT/' -e 's/ NOT NULL//' <<< "$declarations")
    sqlite3 -batch -bail -init /dev/null "$scratch/named.db" "$declarations $book $named $beside"
    sqlite3 -batch -bail -init /dev/null "$scratch/unnamed.db" "$declarations $book $unnamed $beside"
    sqlite3 -batch -bail -init /dev/null "$scratch/named_otherwise.db" "$otherwise $book $named"
    sqlite3 -batch -bail -init /dev/null "$scratch/unnamed_otherwise.db" "$otherwise $book ${unnamed/ STRICT/}"
}

if [ $# -eq 1 ]; then
    make_files
    exit
fi

# what a test printed
printed() { # TEST
    sed -n "/^test sqlite::rows::$1 \.\.\. ok\$/,/^test /{/^test /d; s/^    //; p}" "$log"
}
# what a test printed, and the file that it left then, from the hex digits that it printed
taken() { # TEST FILE
    printed "$1" > "$scratch/section"
    sed -n 's/^file //p' "$scratch/section" > "$scratch/hex"
    [ -s "$scratch/hex" ] || { cat "$log" >&2; fail "the test $1 left no file"; }
    { echo "SELECT writefile('$2', X'"; tr -d '\n' < "$scratch/hex"; echo "');"; } | tr -d '\n' > "$scratch/write.sql"
    sqlite3 -batch -bail -init /dev/null :memory: < "$scratch/write.sql" > /dev/null
    sed '$d' "$scratch/section"
}
log=$2
forms='named unnamed named_otherwise unnamed_otherwise'
rows "$scratch/other.db" > "$scratch/expected"
printed shows_a_file > "$scratch/found"
same 'the rows of a file that sqlite3 made' "$scratch/expected" "$scratch/found"
there "$scratch/names.db" > "$scratch/expected"
[ "$(tr '\n' ' ' < "$scratch/expected")" = 'book tab para ' ] || fail 'sqlite3 made other tables than it was told'
printed tells_the_tables > "$scratch/found"
same 'the tables that are there' "$scratch/expected" "$scratch/found"
taken makes_a_file "$scratch/made.db" > "$scratch/made.rows"
for table in book tab para mark cache corr2; do
    [ "$(grep -c "^$table|" "$scratch/made.rows")" -ge 5 ] || fail "the file that was made here lacks rows of $table"
done
rows "$scratch/made.db" > "$scratch/found"
same 'the rows of a file that was made here, shown by sqlite3' "$scratch/made.rows" "$scratch/found"
echo "$declarations" > "$scratch/expected"
sqlite3 -batch -init /dev/null "$scratch/made.db" .schema > "$scratch/found"
same 'its declarations' "$scratch/expected" "$scratch/found"
columns "$scratch/other.db" > "$scratch/expected"
columns "$scratch/made.db" > "$scratch/found"
same 'its columns and keys' "$scratch/expected" "$scratch/found"
echo ok > "$scratch/expected"
sqlite3 -batch -init /dev/null "$scratch/made.db" 'PRAGMA integrity_check' > "$scratch/found"
same 'its integrity' "$scratch/expected" "$scratch/found"

# the book of each file that sqlite3 made, and what opening it left
sqlite3 -batch -bail -init /dev/null "$scratch/named.db" "
    SELECT id, quote(print), quote(cells) FROM para JOIN cache ON cache.para = id ORDER BY place; SELECT 'version', version FROM book;" > "$scratch/book"
rows "$scratch/named.db" > "$scratch/expected.rows"
for form in $forms; do
    taken "opens_$form" "$scratch/opened.db" > "$scratch/found"
    same "the book of $form.db" "$scratch/book" "$scratch/found"
    rows "$scratch/opened.db" > "$scratch/found"
    same 'the rows that opening left in it' "$scratch/expected.rows" "$scratch/found"
    sqlite3 -batch -init /dev/null "$scratch/opened.db" 'PRAGMA integrity_check' > "$scratch/found"
    echo ok > "$scratch/expected"
    same 'its integrity' "$scratch/expected" "$scratch/found"
done
