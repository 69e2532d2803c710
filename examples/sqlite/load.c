/* SPDX-License-Identifier: Apache-2.0 */
/* One list of loads, done by SQLite twice: over its own page cache, and over pinpool's. Each load's answers are summed up,
** and both have to give the same sum. It prints the misses, the time and the memory after each side by side.
**
** load [--only sqlite | --only pinpool | --refuse] FOLDER PAGES ROWS
**
** --refuse does all loads over pinpool's cache again and again, each time with one more of the proved side's allocations
** refused: each has to end as it should or in want of memory, and integrity_check has to be ok afterwards. */
#include "pinpool_cache.h"
#include "shim.h"
#include <pthread.h>
#include <setjmp.h>
#include <stdint.h>
#include <stdio.h>
#include <stdlib.h>
#include <string.h>
#include <time.h>
#include <unistd.h>

#define MOST_LOADS 32

/* What came of a load. */
typedef struct outcome {
    const char *name;
    uint64_t answers;
    int misses;
    double seconds;
    sqlite3_int64 bytes; /* that SQLite has of memory after it, all in all */
} outcome;

/* Each thread has a connection, a sum and numbers of its own. */
static _Thread_local sqlite3 *db;
static _Thread_local uint64_t answers, chance;
static const char *folder;
static long rows, pages;
static outcome done[2][MOST_LOADS];
static int loads;

/* Where a statement that wants memory goes on, under --refuse. */
static int may_want;
static jmp_buf wanted;

static void stop(const char *what) {
    if (may_want && (sqlite3_errcode(db) & 255) == SQLITE_NOMEM) longjmp(wanted, 1);
    fprintf(stderr, "load: %s: %s\n", what, db ? sqlite3_errmsg(db) : "no database");
    exit(2);
}

/* Numbers that are the same in each run (xorshift). */
static uint64_t draw(uint64_t below) {
    chance ^= chance << 13;
    chance ^= chance >> 7;
    chance ^= chance << 17;
    return chance % below;
}

/* Adds an answer to the sum (FNV-1a). */
static void add(const void *text, int length) {
    const unsigned char *at = text;
    for (int i = 0; i < length; i++) answers = (answers ^ at[i]) * 1099511628211ull;
    answers = (answers ^ 255) * 1099511628211ull;
}

static sqlite3_stmt *prepared(const char *sql) {
    sqlite3_stmt *statement = 0;
    if (sqlite3_prepare_v2(db, sql, -1, &statement, 0) != SQLITE_OK) stop(sql);
    return statement;
}

/* Runs the statement to its end, and adds each of its answers. */
static void finish(sqlite3_stmt *statement) {
    int status;
    while ((status = sqlite3_step(statement)) == SQLITE_ROW)
        for (int i = 0; i < sqlite3_column_count(statement); i++)
            add(sqlite3_column_text(statement, i), sqlite3_column_bytes(statement, i));
    if (status != SQLITE_DONE) stop(sqlite3_sql(statement));
    sqlite3_reset(statement);
}

static void ask(const char *sql) {
    sqlite3_stmt *statement = prepared(sql);
    finish(statement);
    sqlite3_finalize(statement);
}

static void ask_of(const char *sql, long long first, long long second) {
    char text[300];
    snprintf(text, sizeof text, sql, first, second);
    ask(text);
}

/* A text of lower-case letters, 80 to 199 of them. */
static int letters(char *text) {
    int length = 80 + (int)draw(120);
    for (int i = 0; i < length; i++) text[i] = (char)('a' + draw(26));
    return length;
}

static void insert(void) {
    char text[200];
    ask("BEGIN");
    sqlite3_stmt *statement = prepared("INSERT INTO item(key, note) VALUES(?, ?)");
    for (long i = 0; i < rows; i++) {
        sqlite3_bind_int64(statement, 1, (sqlite3_int64)draw(1000000));
        sqlite3_bind_text(statement, 2, text, letters(text), SQLITE_TRANSIENT);
        finish(statement);
    }
    sqlite3_finalize(statement);
    ask("COMMIT");
}

static void make_index(void) { ask("CREATE INDEX item_key ON item(key)"); }

/* Reads `many` rows. Of 100 reads `skew` go to a tenth of the rows, and every 200th is a scan of a fortieth if `scans`. */
static void read_rows(long many, unsigned skew, int scans) {
    sqlite3_stmt *one = prepared("SELECT note FROM item WHERE id = ?");
    sqlite3_stmt *range = prepared("SELECT sum(length(note)) FROM item WHERE id BETWEEN ?1 AND ?1 + ?2");
    for (long i = 0; i < many; i++) {
        uint64_t of = draw(100) < skew ? (uint64_t)rows / 10 : (uint64_t)rows;
        sqlite3_bind_int64(one, 1, 1 + (sqlite3_int64)draw(of));
        finish(one);
        if (scans && i % 200 == 0) {
            sqlite3_bind_int64(range, 1, 1 + (sqlite3_int64)draw((uint64_t)rows));
            sqlite3_bind_int64(range, 2, rows / 40);
            finish(range);
        }
    }
    sqlite3_finalize(one);
    sqlite3_finalize(range);
}

static void read_anywhere(void) { read_rows(rows, 0, 0); }

static void read_skewed(void) { read_rows(rows, 80, 0); }

static void read_skewed_and_scan(void) { read_rows(rows, 80, 1); }

static void scan(void) {
    for (int i = 0; i < 3; i++) ask("SELECT count(*), sum(length(note)) FROM item");
}

static void read_by_index(void) {
    for (int i = 0; i < 200; i++) {
        long long key = (long long)draw(1000000);
        ask_of("SELECT count(*), sum(length(note)) FROM item WHERE key BETWEEN %lld AND %lld", key, key + 4000);
    }
}

static void update(void) {
    for (int i = 0; i < 200; i++) {
        ask("BEGIN");
        for (int j = 0; j < 50; j++)
            ask_of("UPDATE item SET note = note || 'x', key = key + 1 WHERE id = %lld", 1 + (long long)draw((uint64_t)rows), 0);
        ask("COMMIT");
    }
}

static void roll_back(void) {
    for (int i = 0; i < 50; i++) {
        ask("BEGIN");
        for (int j = 0; j < 50; j++)
            ask_of("UPDATE item SET note = 'gone', key = 0 WHERE id = %lld", 1 + (long long)draw((uint64_t)rows), 0);
        ask("SAVEPOINT inner_one");
        ask_of("DELETE FROM item WHERE id BETWEEN %lld AND %lld", i * 50, i * 50 + 400);
        ask("ROLLBACK TO inner_one");
        ask_of("INSERT INTO item(key, note) VALUES(%lld, 'new')", i, 0);
        ask("SELECT count(*) FROM item WHERE key = 0");
        ask("ROLLBACK");
    }
    ask("BEGIN");
    ask("UPDATE item SET key = key + 7");
    ask("ROLLBACK");
}

static void use_temporary_tables(void) {
    ask("CREATE TEMP TABLE seen AS SELECT key % 1000 AS part, count(*) AS many, max(note) AS last FROM item GROUP BY 1");
    ask("CREATE INDEX temp.seen_many ON seen(many)");
    ask("SELECT sum(many), max(last) FROM seen");
    ask("SELECT count(*) FROM (SELECT * FROM item ORDER BY note)");
    ask("DROP TABLE seen");
}

static void use_memory(void) {
    ask("ATTACH ':memory:' AS small");
    ask("CREATE TABLE small.copy AS SELECT * FROM item");
    ask("CREATE INDEX small.copy_key ON copy(key)");
    ask("SELECT sum(key) FROM small.copy");
    ask("DETACH small");
}

static void delete_half(void) { ask("DELETE FROM item WHERE id % 2 = 0"); }

static void vacuum(void) {
    ask("PRAGMA incremental_vacuum");
    ask("VACUUM");
}

static void change_size(void) {
    ask_of("PRAGMA cache_size = %lld", pages / 4 + 10, 0);
    read_rows(rows / 4, 80, 0);
    ask_of("PRAGMA cache_size = %lld", pages, 0);
    read_rows(rows / 4, 80, 0);
    ask("PRAGMA shrink_memory");
    read_rows(rows / 4, 80, 0);
    ask("PRAGMA cache_size = 0");
    read_rows(rows / 20, 80, 0);
    ask_of("PRAGMA cache_size = %lld", pages, 0);
}

/* ---- which pages spill */

/* Whether writes to a database are pages that spill, and how many did. */
static int is_watching;
static long spilled;
static sqlite3_vfs *below_watch;
static sqlite3_io_methods watched;
static int (*write_unwatched)(sqlite3_file *, const void *, int, sqlite3_int64);

static int write_watched(sqlite3_file *file, const void *bytes, int many, sqlite3_int64 at) {
    if (is_watching) {
        add(&at, sizeof at);
        spilled++;
    }
    return write_unwatched(file, bytes, many, at);
}

static int open_watched(sqlite3_vfs *vfs, const char *name, sqlite3_file *file, int flags, int *opened) {
    (void)vfs;
    int status = below_watch->xOpen(below_watch, name, file, flags, opened);
    if (status == SQLITE_OK && (flags & SQLITE_OPEN_MAIN_DB)) {
        watched = *file->pMethods;
        write_unwatched = watched.xWrite;
        watched.xWrite = write_watched;
        file->pMethods = &watched;
    }
    return status;
}

/* Transactions over caches of 10 to 59 pages, each of which changes pages of a table in their order, and finds none of them
** cached. The sum has the place of each page that is written before the end. (Where pages are cached before, or changed again
** after they were written, these depend on misses, and so on which pages leave.) */
static void spill(void) {
    static sqlite3_vfs vfs;
    sqlite3 *other = db;
    char file[4096];
    below_watch = sqlite3_vfs_find(0);
    vfs = *below_watch;
    vfs.zName = "watched";
    vfs.xOpen = open_watched;
    vfs.pNext = 0;
    sqlite3_vfs_register(&vfs, 0);
    snprintf(file, sizeof file, "%s/spill.db", folder);
    unlink(file);
    if (sqlite3_open_v2(file, &db, SQLITE_OPEN_READWRITE | SQLITE_OPEN_CREATE, "watched") != SQLITE_OK) stop("open");
    ask("PRAGMA page_size = 1024");
    ask("PRAGMA synchronous = OFF");
    ask("CREATE TABLE item(id INTEGER PRIMARY KEY, key INT, note TEXT)");
    ask("BEGIN");
    for (long i = 0; i < 1500; i++) ask_of("INSERT INTO item(key, note) VALUES(%lld, hex(zeroblob(90)))", 100000 + i, 0);
    ask("COMMIT");
    spilled = 0;
    for (int size = 10; size < 60; size++) {
        ask_of("PRAGMA cache_size = %lld", size, 0);
        ask("PRAGMA shrink_memory");
        ask("BEGIN");
        is_watching = 1;
        ask_of("UPDATE item SET key = key + 1 WHERE id BETWEEN %lld AND %lld", 1 + 7 * size, 900 + 7 * size);
        is_watching = 0;
        add(&spilled, sizeof spilled);
        ask(size % 3 ? "COMMIT" : "ROLLBACK");
    }
    ask("SELECT count(*), sum(key), sum(length(note)) FROM item");
    if (sqlite3_close(db) != SQLITE_OK) stop("close");
    sqlite3_vfs_unregister(&vfs);
    db = other;
    if (spilled < 1000) stop("too few pages spilled");
    unlink(file);
}

/* ---- a large transaction */

/* How many pages it changes, and how many others it reads: with fewer rows than 5,000 it is smaller. */
static long many_pages(void) { return rows < 5000 ? rows * 8 : 40000; }

/* A file beside, of two tables with so many pages each: a row has a page of its own. The cache has room for five of eight. */
static void make_many(void) {
    char file[4096], text[4200];
    snprintf(file, sizeof file, "%s/many.db", folder);
    unlink(file);
    snprintf(text, sizeof text, "%s-journal", file);
    unlink(text);
    snprintf(text, sizeof text, "ATTACH '%s' AS many", file);
    ask(text);
    ask("PRAGMA many.page_size = 1024");
    ask("PRAGMA many.synchronous = OFF");
    ask_of("PRAGMA many.cache_size = %lld", many_pages() * 5 / 4, 0);
    for (int i = 0; i < 2; i++) {
        ask_of("CREATE TABLE many.t%lld(id INTEGER PRIMARY KEY, key INT, note TEXT)", i, 0);
        ask_of("INSERT INTO many.t%lld(key, note) WITH RECURSIVE n(i) AS (SELECT 1 UNION ALL SELECT i + 1 FROM n WHERE i < %lld) "
               "SELECT i, hex(zeroblob(350)) FROM n", i, many_pages());
    }
}

/* It changes all pages of one table, which stay pinned, and then reads all of the other, so that each miss needs a victim. */
static void change_many(void) {
    char file[4096];
    ask("PRAGMA shrink_memory");
    ask("BEGIN");
    ask("UPDATE many.t0 SET key = key + 1");
    ask("SELECT count(*), sum(key), sum(length(note)) FROM many.t1");
    ask("COMMIT");
    ask("SELECT count(*), sum(key) FROM many.t0");
    ask("DETACH many");
    snprintf(file, sizeof file, "%s/many.db", folder);
    unlink(file);
}

/* ---- memory */

/* A transaction of 2 KB for each row whose pages all stay in the cache, and the table is dropped again. */
static void hold_much(void) {
    ask("PRAGMA cache_spill = OFF");
    ask("BEGIN");
    ask("CREATE TABLE much(id INTEGER PRIMARY KEY, note TEXT)");
    sqlite3_stmt *statement = prepared("INSERT INTO much(note) VALUES(hex(zeroblob(1000)))");
    for (long i = 0; i < rows; i++) finish(statement);
    sqlite3_finalize(statement);
    ask("COMMIT");
    ask("SELECT count(*), sum(length(note)) FROM much");
    ask("DROP TABLE much");
    ask("PRAGMA cache_spill = ON");
}

/* Tables in memory that come and go, so that pages get the numbers of others, and the one behind the last. */
static void move_in_memory(void) {
    ask("ATTACH ':memory:' AS moved");
    ask("PRAGMA moved.auto_vacuum = 1");
    for (int i = 0; i < 24; i++) {
        ask_of("CREATE TABLE moved.t%lld(id INTEGER PRIMARY KEY, note TEXT)", i, 0);
        ask_of("INSERT INTO moved.t%lld SELECT id, note FROM item LIMIT %lld", i, 40 + 10 * i);
        ask_of("CREATE INDEX moved.i%lld ON t%lld(note)", i, i);
        if (i % 3 == 2) ask_of("DROP TABLE moved.t%lld", i - 1, 0);
    }
    ask("BEGIN");
    ask("DROP TABLE moved.t0");
    ask("CREATE TABLE moved.again AS SELECT * FROM moved.t2");
    ask("ROLLBACK");
    ask("SELECT count(*), max(note) FROM moved.t0");
    ask("PRAGMA moved.integrity_check");
    ask("DETACH moved");
}

/* Reads with a large cache while the heap may not grow much: pages take the place of others. */
static void limit_heap(void) {
    ask("PRAGMA shrink_memory");
    ask_of("PRAGMA cache_size = %lld", pages * 20, 0);
    sqlite3_int64 limit = sqlite3_memory_used() + 200000;
    sqlite3_soft_heap_limit64(limit);
    scan();
    read_rows(rows / 2, 80, 1);
    if (sqlite3_memory_used() > limit + limit / 4) stop("the soft heap limit isn't kept");
}

static void lift_limit(void) {
    sqlite3_soft_heap_limit64(0);
    ask_of("PRAGMA cache_size = %lld", pages, 0);
    scan();
}

/* ---- threads */

/* What a thread does with a connection of its own: its number, and then the sum of its answers. */
static void *work_alone(void *it) {
    uint64_t *sum = it;
    char file[4096];
    snprintf(file, sizeof file, "%s/thread-%d.db", folder, (int)*sum);
    unlink(file);
    chance = 88172645463325252ull + *sum;
    answers = 14695981039346656037ull;
    if (sqlite3_open(file, &db) != SQLITE_OK) stop("open");
    ask("PRAGMA synchronous = OFF");
    ask_of("PRAGMA cache_size = %lld", 20 + 10 * (long long)*sum, 0);
    ask("CREATE TABLE item(id INTEGER PRIMARY KEY, key INT, note TEXT)");
    insert();
    make_index();
    read_skewed();
    read_by_index();
    use_memory();
    delete_half();
    ask("PRAGMA integrity_check");
    if (sqlite3_close(db) != SQLITE_OK) stop("close");
    unlink(file);
    *sum = answers;
    return 0;
}

static void use_threads(void) {
    pthread_t threads[4];
    uint64_t sums[4];
    for (int i = 0; i < 4; i++) {
        sums[i] = (uint64_t)i;
        if (pthread_create(&threads[i], 0, work_alone, &sums[i]) != 0) stop("pthread_create");
    }
    for (int i = 0; i < 4; i++) {
        pthread_join(threads[i], 0);
        add(&sums[i], sizeof sums[i]);
    }
}

static void check(void) {
    sqlite3_stmt *statement = prepared("PRAGMA integrity_check");
    if (sqlite3_step(statement) != SQLITE_ROW || strcmp((const char *)sqlite3_column_text(statement, 0), "ok") != 0) {
        fprintf(stderr, "load: integrity_check: %s\n", sqlite3_column_text(statement, 0));
        exit(1);
    }
    sqlite3_finalize(statement);
    ask("SELECT count(*), sum(key), sum(length(note)) FROM item");
}

static const struct {
    const char *name;
    void (*work)(void);
} list[] = {
    {"insert", insert},
    {"index", make_index},
    {"reads anywhere", read_anywhere},
    {"reads, skewed", read_skewed},
    {"skewed, and scans", read_skewed_and_scan},
    {"scans of all", scan},
    {"reads by the index", read_by_index},
    {"updates", update},
    {"rollbacks", roll_back},
    {"temporary tables", use_temporary_tables},
    {"in memory", use_memory},
    {"delete half", delete_half},
    {"vacuum", vacuum},
    {"other cache sizes", change_size},
    {"pages that spill", spill},
    {"many pages", make_many},
    {"a large transaction", change_many},
    {"much in one go", hold_much},
    {"moves in memory", move_in_memory},
    {"a full heap", limit_heap},
    {"the limit is lifted", lift_limit},
    {"four threads", use_threads},
    {"integrity_check", check},
};

static double now(void) {
    struct timespec it;
    clock_gettime(CLOCK_PROCESS_CPUTIME_ID, &it);
    return (double)it.tv_sec + (double)it.tv_nsec * 1e-9;
}

static void run_load(outcome *into, int at) {
    int misses, unused;
    answers = 14695981039346656037ull;
    sqlite3_db_status(db, SQLITE_DBSTATUS_CACHE_MISS, &misses, &unused, 1);
    double begun = now();
    list[at].work();
    into->seconds = now() - begun;
    sqlite3_db_status(db, SQLITE_DBSTATUS_CACHE_MISS, &misses, &unused, 0);
    into->name = list[at].name;
    into->answers = answers;
    into->misses = misses;
    into->bytes = sqlite3_memory_used();
}

/* All loads over the cache that SQLite is set to. */
static void run_all(outcome *into) {
    char file[4096];
    snprintf(file, sizeof file, "%s/load.db", folder);
    chance = 88172645463325252ull;
    unlink(file);
    if (sqlite3_open(file, &db) != SQLITE_OK) stop("open");
    ask("PRAGMA page_size = 4096");
    ask("PRAGMA auto_vacuum = 2");
    ask("PRAGMA synchronous = OFF");
    ask_of("PRAGMA cache_size = %lld", pages, 0);
    ask("CREATE TABLE item(id INTEGER PRIMARY KEY, key INT, note TEXT)");
    loads = (int)(sizeof list / sizeof *list);
    for (int at = 0; at < loads; at++) run_load(&into[at], at);
    if (sqlite3_close(db) != SQLITE_OK) stop("close");
    db = 0;
    sqlite3_shutdown();
    unlink(file);
}

/* Prints what came of the caches from `first` to `last`, side by side, and answers how many loads went wrong: those with
** other answers, and those after which SQLite has more memory than 1 MB beside one and a half times what it has over its own
** cache. (A transaction of 40 MB has 10,000 pages, with names for which the proved side takes 1.05 MB.) */
static int tell(int first, int last) {
    int others = 0, large = 0;
    double seconds[2] = {0, 0};
    printf("%-20s %-16s", "load", "answers");
    for (int i = 0; i < 3; i++)
        for (int of = first; of <= last; of++)
            printf(" %10s", of > first ? "pinpool" : i == 0 ? "misses" : i == 1 ? "ms" : "KB after");
    printf("\n");
    for (int at = 0; at < loads; at++) {
        const outcome *one = &done[first][at], *two = &done[last][at];
        int is_same = one->answers == two->answers, is_large = two->bytes > one->bytes + one->bytes / 2 + 1000000;
        others += !is_same;
        large += is_large;
        printf("%-20s %016llx", one->name, (unsigned long long)one->answers);
        for (int of = first; of <= last; of++) printf(" %10d", done[of][at].misses);
        for (int of = first; of <= last; of++) printf(" %10.1f", done[of][at].seconds * 1e3);
        for (int of = first; of <= last; of++) printf(" %10.1f", (double)done[of][at].bytes * 1e-3);
        for (int of = first; of <= last; of++) seconds[of] += done[of][at].seconds;
        printf("%s%s\n", is_same ? "" : "  OTHER ANSWERS", is_large ? "  TOO MUCH MEMORY" : "");
    }
    printf("%-20s %-16s %10s", "all", first == last ? "" : others ? "differ" : "the same", "");
    if (first != last) printf(" %10s", "");
    for (int of = first; of <= last; of++) printf(" %10.1f", seconds[of] * 1e3);
    printf("\n");
    return others + large;
}

/* ---- memory that is refused */

static long asked, refused_at;

static int is_refused(void) { return may_want && ++asked == refused_at; }

static void *get_or_refuse(size_t bytes) { return is_refused() ? 0 : sqlite3_malloc64(bytes); }

static void *resize_or_refuse(void *at, size_t bytes) { return is_refused() ? 0 : sqlite3_realloc64(at, bytes); }

static const pinpool_memory refusing = {get_or_refuse, resize_or_refuse, sqlite3_free};

/* The shim says where a page is refused its new number, which never is to be. */
static void hear(void *unused, int status, const char *said) {
    (void)unused;
    if (strncmp(said, "pinpool:", 8) == 0) {
        fprintf(stderr, "load: %s (%d)\n", said, status);
        exit(1);
    }
}

/* The database that a load left is opened anew, and has to be whole. */
static void check_again(void) {
    char file[4096];
    snprintf(file, sizeof file, "%s/load.db", folder);
    sqlite3_soft_heap_limit64(0);
    sqlite3_stmt *left;
    while (db && (left = sqlite3_next_stmt(db, 0))) sqlite3_finalize(left);
    if (sqlite3_close(db) != SQLITE_OK) stop("close");
    db = 0;
    if (sqlite3_open(file, &db) != SQLITE_OK) stop("open again");
    sqlite3_stmt *statement = prepared("PRAGMA integrity_check");
    if (sqlite3_step(statement) != SQLITE_ROW || strcmp((const char *)sqlite3_column_text(statement, 0), "ok") != 0) {
        fprintf(stderr, "load: integrity_check: %s\n", sqlite3_column_text(statement, 0));
        exit(1);
    }
    sqlite3_finalize(statement);
    if (sqlite3_close(db) != SQLITE_OK) stop("close");
    db = 0;
    unlink(file);
}

/* Does the loads with each allocation of the proved side refused in turn, up to the one that no load makes. The two loads
** with threads and with a database of their own are left out. */
static void refuse_each(void) {
    static long ended, wanting;
    uint64_t sums[MOST_LOADS];
    for (refused_at = 0;; refused_at++) {
        volatile int at = 0;
        char file[4096];
        snprintf(file, sizeof file, "%s/load.db", folder);
        unlink(file);
        chance = 88172645463325252ull;
        asked = 0;
        if (setjmp(wanted) == 0) {
            may_want = refused_at > 0;
            if (sqlite3_open(file, &db) != SQLITE_OK) stop("open");
            ask("PRAGMA auto_vacuum = 2");
            ask("PRAGMA synchronous = OFF");
            ask_of("PRAGMA cache_size = %lld", pages, 0);
            ask("CREATE TABLE item(id INTEGER PRIMARY KEY, key INT, note TEXT)");
            for (at = 0; at < (int)(sizeof list / sizeof *list); at++) {
                if (list[at].work == use_threads || list[at].work == spill) continue;
                answers = 14695981039346656037ull;
                list[at].work();
                if (!refused_at) sums[at] = answers;
                if (answers != sums[at]) {
                    fprintf(stderr, "load: %s has other answers where allocation %ld is refused\n", list[at].name, refused_at);
                    exit(1);
                }
            }
            ended++;
        } else {
            wanting++;
        }
        may_want = 0;
        check_again();
        if (refused_at && asked < refused_at) break;
    }
    printf("%ld allocations of the proved side refused, one by one: %ld runs ended as ever, %ld in want of memory, each whole\n",
        refused_at - 1, ended - 2, wanting);
    if (refused_at < 10) exit(1);
}

int main(int count, char **words) {
    const char *only = "";
    int refuses = 0;
    if (count > 2 && strcmp(words[1], "--only") == 0) {
        only = words[2];
        count -= 2;
        words += 2;
    } else if (count > 1 && strcmp(words[1], "--refuse") == 0) {
        refuses = 1;
        count--;
        words++;
    }
    if (count != 4 || (pages = atol(words[2])) < 1 || (rows = atol(words[3])) < 100) {
        fprintf(stderr, "load [--only sqlite | --only pinpool | --refuse] FOLDER PAGES ROWS, a page or more and 100 rows or more\n");
        return 2;
    }
    folder = words[1];
    printf("SQLite %s, pinpool %s, %ld rows, a cache of %ld pages of 4096 bytes\n", sqlite3_libversion(),
        pinpool_cache_version(), rows, pages);
    if (refuses) {
        if (pinpool_for_sqlite() != SQLITE_OK || sqlite3_config(SQLITE_CONFIG_LOG, hear, (void *)0) != SQLITE_OK) stop("configure");
        pinpool_cache_memory(&refusing);
        refuse_each();
        return 0;
    }
    if (strcmp(only, "pinpool") != 0) run_all(done[0]);
    if (strcmp(only, "sqlite") != 0) {
        if (pinpool_for_sqlite() != SQLITE_OK) stop("pinpool_for_sqlite");
        run_all(done[1]);
    }
    return tell(strcmp(only, "pinpool") == 0, strcmp(only, "sqlite") != 0) ? 1 : 0;
}
