/* The floors: what a plain C loop takes for the work that dbremote does, with the same bytes read and written and the same syncs.
 *
 *     floors machine                        prints the milliseconds of a loop on the processor, and of memory touched for the first time
 *     floors syncs FILE COUNT               so many commits of 60 bytes, with two syncs each
 *     floors keep LOG                       reads a log and keeps its rows
 *     floors sum LOG                        the same, and prints the sum of their second column
 *     floors script LOG < SCRIPT            parses one-row INSERTs and COMMITs, keeps the rows, and commits each transaction to the log
 *     floors walk LOG WORD TIMES [SCRIPT]   keeps the rows of a log, and goes over them so many times; prints the milliseconds of one time
 *     floors send LOG FOLDER PARTNERS FROM  keeps the rows, and puts what lies from an offset on as message files, by the second column
 *     floors take FOLDER LOG                reads message files in the order of their names, and commits each transaction
 *     floors copy SNAPSHOT LOG INTO         copies both, and syncs each and a file of one byte behind them
 *     floors read FILE ..                   reads files, and adds up their bytes
 *     floors peak FILE WORDS                runs a program, and writes the KiB of its peak memory into a file; its status is the program's
 *
 * It takes the logs that bench/all.py writes and no others: one table with an INTEGER as its key, an INTEGER, and at most one text of ASCII. A row takes
 * 16 bytes, and a longer text a block besides. What is wrong ends it with status 1 and a line.
 */
#define _GNU_SOURCE
#include <dirent.h>
#include <fcntl.h>
#include <stdint.h>
#include <stdio.h>
#include <stdlib.h>
#include <string.h>
#include <sys/mman.h>
#include <sys/resource.h>
#include <sys/stat.h>
#include <sys/wait.h>
#include <time.h>
#include <unistd.h>

typedef unsigned char byte;

enum { PIECE = 65536, HEADER = 16, SHORT_TEXT = 7, DIGEST = 32, MESSAGE = 50000, MOST_OPS = MESSAGE - 200 };
enum { OWN = 1, DDL = 3, INTEGER = 1, VARCHAR = 3 };

static void fail(const char *what) {
    fprintf(stderr, "floors: %s\n", what);
    exit(1);
}

static void check(int holds, const char *what) {
    if (!holds) fail(what);
}

static double now(void) {
    struct timespec time;
    clock_gettime(CLOCK_MONOTONIC, &time);
    return time.tv_sec * 1e3 + time.tv_nsec / 1e6;
}

static uint32_t u32(const byte *at) { return (uint32_t)at[0] << 24 | at[1] << 16 | at[2] << 8 | at[3]; }

/* Lists of bytes that grow */
typedef struct { byte *at; size_t length, room; } Bytes;

static void reserve(Bytes *bytes, size_t more) {
    if (bytes->length + more <= bytes->room) return;
    bytes->room = 2 * bytes->room + more + 256;
    bytes->at = realloc(bytes->at, bytes->room);
    check(bytes->at != NULL, "no memory");
}

static void push(Bytes *bytes, const void *from, size_t length) {
    reserve(bytes, length);
    memcpy(bytes->at + bytes->length, from, length);
    bytes->length += length;
}

static void push_number(Bytes *bytes, uint64_t number, int width) {
    reserve(bytes, width);
    for (int place = width - 1; place >= 0; place--) bytes->at[bytes->length++] = number >> 8 * place;
}

/* The rows of the table, in the order of their keys */
typedef struct { int32_t key, number; union { byte near[SHORT_TEXT + 1]; byte *far; } text; } Row;
static Row *rows;
static size_t count, room;

static size_t place_of(int32_t key) {
    if (count == 0 || rows[count - 1].key < key) return count;
    size_t low = 0, high = count;
    while (low < high) {
        size_t middle = (low + high) / 2;
        if (rows[middle].key < key) low = middle + 1; else high = middle;
    }
    return low;
}

static void insert(int32_t key, int32_t number, const byte *text, uint32_t length) {
    size_t at = place_of(key);
    check(at == count || rows[at].key != key, "a key that is there");
    if (count == room) {
        room = room ? 2 * room : 1024;
        rows = realloc(rows, room * sizeof(Row));
        check(rows != NULL, "no memory");
    }
    memmove(rows + at + 1, rows + at, (count - at) * sizeof(Row));
    Row *row = rows + at;
    row->key = key;
    row->number = number;
    if (length <= SHORT_TEXT) {
        memcpy(row->text.near, text, length);
        row->text.near[SHORT_TEXT] = length;
    } else {
        row->text.far = malloc(length);
        check(row->text.far != NULL, "no memory");
        memcpy(row->text.far, text, length);
    }
    count++;
}

static void delete(int32_t key, uint32_t length) {
    size_t at = place_of(key);
    check(at < count && rows[at].key == key, "a key that is not there");
    if (length > SHORT_TEXT) free(rows[at].text.far);
    memmove(rows + at, rows + at + 1, (count - at - 1) * sizeof(Row));
    count--;
}

/* Reading a log in pieces: a record lies whole in the buffer when it is taken */
static int log_file;
static Bytes piece;
static size_t taken;

static int has(size_t need) {
    while (piece.length - taken < need) {
        if (taken > 0) {
            memmove(piece.at, piece.at + taken, piece.length - taken);
            piece.length -= taken;
            taken = 0;
        }
        reserve(&piece, need > PIECE ? need : PIECE);
        ssize_t came = read(log_file, piece.at + piece.length, piece.room - piece.length);
        check(came >= 0, "the log cannot be read");
        if (came == 0) return 0;
        piece.length += came;
    }
    return 1;
}

typedef struct { int32_t key, number; const byte *text; uint32_t length; } Read;

static const byte *read_row(const byte *at, const byte *end, Read *row) {
    check(end - at >= 14, "a row that ends early");
    uint32_t columns = u32(at);
    check((columns == 2 || columns == 3) && at[4] == INTEGER && at[9] == INTEGER, "a row of other columns");
    row->key = u32(at + 5);
    row->number = u32(at + 10);
    row->text = NULL;
    row->length = 0;
    at += 14;
    if (columns == 2) return at;
    check(end - at >= 5 && at[0] == VARCHAR, "a text that ends early");
    row->length = u32(at + 1);
    row->text = at + 5;
    check(row->length <= (size_t)(end - row->text), "a text that ends early");
    byte any = 0;
    for (uint32_t place = 0; place < row->length; place++) any |= row->text[place];
    check(any < 0x80, "a text that is not ASCII");
    return row->text + row->length;
}

/* What is done with each row that comes: the offset behind its record */
typedef void (*Take)(uint64_t offset, const Read *row);

static void read_entry(const byte *at, uint32_t length, uint64_t offset, Take take) {
    const byte *end = at + length;
    if (at[0] == DDL) return;
    if (at[0] != OWN) return;
    check(length >= 5, "an entry that ends early");
    uint32_t changes = u32(at + 1);
    at += 5;
    for (; changes > 0; changes--) {
        Read before, after;
        check(end - at >= 4 && at[0] == 1 && (at[1] == 't' || at[1] == 'c'), "another table");
        byte was = at[2];
        at += 3;
        if (was) at = read_row(at, end, &before);
        check(at < end, "a change that ends early");
        byte is = *at++;
        if (is) at = read_row(at, end, &after);
        check(was != is, "a change that is neither an insert nor a delete");
        if (was) delete(before.key, before.length);
        else insert(after.key, after.number, after.text, after.length);
        if (is && take) take(offset, &after);
    }
    check(at == end, "bytes behind an entry");
}

static uint64_t keep(const char *path, Take take) {
    uint64_t offset = 0;
    log_file = open(path, O_RDWR);
    check(log_file >= 0, "no log");
    for (int file = 0; file < 3; file++) fdatasync(log_file);
    check(has(HEADER + 1), "a log without its header");
    taken = HEADER;
    while (has(1) && piece.at[taken] == 1) {
        check(has(5), "a record that ends early");
        uint32_t length = u32(piece.at + taken + 1);
        check(length > 0 && has(5 + (size_t)length + 1), "a record that ends early");
        offset += 5 + length;
        read_entry(piece.at + taken + 5, length, offset, take);
        taken += 5 + (size_t)length;
    }
    return offset;
}

/* A commit: the record with a closed gate behind it, a sync, the gate before it, a sync */
static void commit(uint64_t gate, Bytes *record) {
    uint32_t length = record->length - 4;
    for (int place = 0; place < 4; place++) record->at[place] = length >> 8 * (3 - place);
    push_number(record, 0, 1);
    check(pwrite(log_file, record->at, record->length, gate + 1) == (ssize_t)record->length && fdatasync(log_file) == 0, "a write");
    check(pwrite(log_file, "\1", 1, gate) == 1 && fdatasync(log_file) == 0, "a write");
}

static void push_change(Bytes *record, int32_t key, int32_t number) {
    push(record, "\1t\0\1\0\0\0\2\1", 9);
    push_number(record, (uint32_t)key, 4);
    push_number(record, INTEGER, 1);
    push_number(record, (uint32_t)number, 4);
}

/* Numbers in a script, and in what is printed */
static int64_t number_at(const byte **at) {
    while (**at != '-' && (**at < '0' || **at > '9')) (*at)++;
    int below = **at == '-';
    int64_t number = 0;
    for (*at += below; **at >= '0' && **at <= '9'; (*at)++) number = 10 * number + (**at - '0');
    check(number <= (int64_t)INT32_MAX + below, "a number that is too large");
    return below ? -number : number;
}

static void expect(const byte **at, const char *text) {
    size_t length = strlen(text);
    check(memcmp(*at, text, length) == 0, "another statement");
    *at += length;
}

static void print_number(Bytes *out, int64_t number) {
    byte digits[20];
    int length = 0;
    uint64_t rest = number < 0 ? -number : number;
    do digits[length++] = '0' + rest % 10; while ((rest /= 10) > 0);
    if (number < 0) digits[length++] = '-';
    reserve(out, length);
    while (length > 0) out->at[out->length++] = digits[--length];
}

static void print_row(Bytes *out, const Row *row) {
    print_number(out, row->key);
    push(out, "|", 1);
    print_number(out, row->number);
    push(out, "\n", 1);
    if (out->length < PIECE) return;
    check(write(1, out->at, out->length) == (ssize_t)out->length, "a write");
    out->length = 0;
}

static Bytes read_all(int file) {
    Bytes text = {0};
    for (;;) {
        reserve(&text, PIECE);
        ssize_t came = read(file, text.at + text.length, text.room - text.length - 1);
        check(came >= 0, "the script cannot be read");
        if (came == 0) break;
        text.length += came;
    }
    text.at[text.length] = 0;
    return text;
}

static void run_script(const char *path) {
    Bytes text = read_all(0), record = {0}, out = {0};
    uint64_t gate = HEADER + keep(path, NULL);
    uint32_t changes = 0;
    const byte *at = text.at;
    push(&record, "\0\0\0\0\1\0\0\0\0", 9);
    while (at < text.at + text.length) {
        if (*at == 'I') {
            expect(&at, "INSERT INTO t VALUES (");
            int32_t key = number_at(&at);
            expect(&at, ", ");
            int32_t number = number_at(&at);
            expect(&at, ");\n");
            insert(key, number, NULL, 0);
            push_change(&record, key, number);
            changes++;
            push(&out, "1 rows\n", 7);
        } else {
            expect(&at, "COMMIT;\n");
            for (int place = 0; place < 4; place++) record.at[5 + place] = changes >> 8 * (3 - place);
            commit(gate, &record);
            gate += record.length;
            record.length = 9;
            changes = 0;
            push(&out, "committed\n", 10);
            check(write(1, out.at, out.length) == (ssize_t)out.length, "a write");
            out.length = 0;
        }
    }
}

/* Walks over the rows that are kept */
static volatile int64_t sink;

static int falls(const void *left, const void *right) {
    const Row *a = left, *b = right;
    if (a->number != b->number) return a->number < b->number ? 1 : -1;
    return a->key < b->key ? -1 : 1;
}

typedef struct { uint32_t at; int32_t before; } Undo;

static void walk_once(const char *word, const Bytes *script) {
    Bytes out = {0};
    int64_t sum = 0;
    if (strcmp(word, "count") == 0) {
        for (size_t at = 0; at < count; at++) sum += rows[at].number >= 0;
    } else if (strcmp(word, "none") == 0) {
        for (size_t at = 0; at < count; at++) sum += rows[at].number < 0;
    } else if (strcmp(word, "sum") == 0) {
        for (size_t at = 0; at < count; at++) sum += rows[at].number;
    } else if (strcmp(word, "best") == 0) {
        int32_t least = INT32_MAX, most = INT32_MIN;
        for (size_t at = 0; at < count; at++) {
            if (rows[at].number < least) least = rows[at].number;
            if (rows[at].number > most) most = rows[at].number;
        }
        sum = (int64_t)least + most;
    } else if (strcmp(word, "rows") == 0) {
        for (size_t at = 0; at < count; at++) print_row(&out, rows + at);
    } else if (strcmp(word, "order") == 0) {
        Row *sorted = malloc(count * sizeof(Row));
        check(sorted != NULL, "no memory");
        memcpy(sorted, rows, count * sizeof(Row));
        qsort(sorted, count, sizeof(Row), falls);
        for (size_t at = 0; at < count; at++) print_row(&out, sorted + at);
        free(sorted);
    } else if (strcmp(word, "update") == 0) {
        Undo *undo = malloc(count * sizeof(Undo));
        check(undo != NULL, "no memory");
        for (size_t at = 0; at < count; at++) {
            undo[at] = (Undo){at, rows[at].number};
            check(!__builtin_add_overflow(rows[at].number, 1, &rows[at].number), "a number that is too large");
        }
        __asm__ volatile("" ::: "memory");
        for (size_t at = count; at > 0; at--) rows[undo[at - 1].at].number = undo[at - 1].before;
        free(undo);
    } else if (strcmp(word, "points") == 0) {
        const byte *at = script->at;
        Undo *undo = NULL;
        size_t done = 0, most = 0;
        while (at < script->at + script->length && *at == 'U') {
            expect(&at, "UPDATE t SET n = ");
            int32_t number = number_at(&at);
            expect(&at, " WHERE id = ");
            size_t place = place_of(number_at(&at));
            expect(&at, ";\n");
            check(place < count, "a key that is not there");
            if (done == most) {
                most = 2 * most + 1024;
                undo = realloc(undo, most * sizeof(Undo));
                check(undo != NULL, "no memory");
            }
            undo[done++] = (Undo){place, rows[place].number};
            rows[place].number = number;
            push(&out, "1 rows\n", 7);
        }
        while (done-- > 0) rows[undo[done].at].number = undo[done].before;
        free(undo);
    } else {
        fail("another word");
    }
    check(write(1, out.at, out.length) == (ssize_t)out.length, "a write");
    free(out.at);
    sink = sum;
}

/* SHA-256, as it is written down in FIPS 180-4 */
static const uint32_t ROUND[64] = {
    0x428a2f98, 0x71374491, 0xb5c0fbcf, 0xe9b5dba5, 0x3956c25b, 0x59f111f1, 0x923f82a4, 0xab1c5ed5, 0xd807aa98, 0x12835b01, 0x243185be, 0x550c7dc3, 0x72be5d74,
    0x80deb1fe, 0x9bdc06a7, 0xc19bf174, 0xe49b69c1, 0xefbe4786, 0x0fc19dc6, 0x240ca1cc, 0x2de92c6f, 0x4a7484aa, 0x5cb0a9dc, 0x76f988da, 0x983e5152, 0xa831c66d,
    0xb00327c8, 0xbf597fc7, 0xc6e00bf3, 0xd5a79147, 0x06ca6351, 0x14292967, 0x27b70a85, 0x2e1b2138, 0x4d2c6dfc, 0x53380d13, 0x650a7354, 0x766a0abb, 0x81c2c92e,
    0x92722c85, 0xa2bfe8a1, 0xa81a664b, 0xc24b8b70, 0xc76c51a3, 0xd192e819, 0xd6990624, 0xf40e3585, 0x106aa070, 0x19a4c116, 0x1e376c08, 0x2748774c, 0x34b0bcb5,
    0x391c0cb3, 0x4ed8aa4a, 0x5b9cca4f, 0x682e6ff3, 0x748f82ee, 0x78a5636f, 0x84c87814, 0x8cc70208, 0x90befffa, 0xa4506ceb, 0xbef9a3f7, 0xc67178f2};

static uint32_t turned(uint32_t word, int by) { return word >> by | word << (32 - by); }

static void digest_block(uint32_t state[8], const byte *block) {
    uint32_t words[64], s[8];
    for (int at = 0; at < 16; at++) words[at] = u32(block + 4 * at);
    for (int at = 16; at < 64; at++) {
        uint32_t low = turned(words[at - 15], 7) ^ turned(words[at - 15], 18) ^ words[at - 15] >> 3;
        uint32_t high = turned(words[at - 2], 17) ^ turned(words[at - 2], 19) ^ words[at - 2] >> 10;
        words[at] = words[at - 16] + low + words[at - 7] + high;
    }
    memcpy(s, state, sizeof s);
    for (int at = 0; at < 64; at++) {
        uint32_t first = s[7] + (turned(s[4], 6) ^ turned(s[4], 11) ^ turned(s[4], 25)) + ((s[4] & s[5]) ^ (~s[4] & s[6])) + ROUND[at] + words[at];
        uint32_t second = (turned(s[0], 2) ^ turned(s[0], 13) ^ turned(s[0], 22)) + ((s[0] & s[1]) ^ (s[0] & s[2]) ^ (s[1] & s[2]));
        memmove(s + 1, s, 7 * sizeof *s);
        s[4] += first;
        s[0] = first + second;
    }
    for (int at = 0; at < 8; at++) state[at] += s[at];
}

static void digest(const byte *bytes, size_t length, byte out[DIGEST]) {
    uint32_t state[8] = {0x6a09e667, 0xbb67ae85, 0x3c6ef372, 0xa54ff53a, 0x510e527f, 0x9b05688c, 0x1f83d9ab, 0x5be0cd19};
    byte last[128] = {0};
    size_t whole = length / 64 * 64, rest = length - whole, end = rest < 56 ? 64 : 128;
    for (size_t at = 0; at < whole; at += 64) digest_block(state, bytes + at);
    memcpy(last, bytes + whole, rest);
    last[rest] = 0x80;
    for (int place = 0; place < 8; place++) last[end - 1 - place] = (uint64_t)length * 8 >> 8 * place;
    for (size_t at = 0; at < end; at += 64) digest_block(state, last + at);
    for (int at = 0; at < DIGEST; at++) out[at] = state[at / 4] >> 8 * (3 - at % 4);
}

/* Sending: of each partner, the transactions that are not put yet, and how many files were */
typedef struct { Bytes body; uint32_t files; uint64_t upto; } Partner;
static Partner *partners;
static uint32_t partner_count;
static uint64_t from;
static const char *mail;

/* As long as what a message has before its fragment */
static const byte HEAD[80];

static void put(uint32_t number) {
    Partner *partner = partners + number;
    byte sum[DIGEST];
    char folder[4096], draft[8192], file[8192];
    snprintf(folder, sizeof folder, "%s/u%u", mail, number);
    if (partner->files++ == 0 && mkdir(folder, 0777) == 0) {
        int outside = open(mail, O_RDONLY);
        fsync(outside);
        close(outside);
    }
    snprintf(draft, sizeof draft, "%s/.hq.%016x", folder, partner->files);
    snprintf(file, sizeof file, "%s/hq.%016x", folder, partner->files);
    digest(partner->body.at, partner->body.length, sum);
    push(&partner->body, sum, DIGEST);
    int inside = open(folder, O_RDONLY), message = open(draft, O_RDWR | O_CREAT | O_EXCL, 0666);
    check(inside >= 0 && message >= 0, "a message cannot be made");
    check(write(message, partner->body.at, partner->body.length) == (ssize_t)partner->body.length && fsync(message) == 0, "a write");
    close(message);
    check(rename(draft, file) == 0 && fsync(inside) == 0, "a message cannot be put");
    close(inside);
    partner->body.length = 0;
}

static void send_row(uint64_t offset, const Read *row) {
    if (offset <= from) return;
    uint32_t number = (uint32_t)row->number % partner_count;
    Partner *partner = partners + number;
    Bytes *body = &partner->body;
    if (body->length == 0) push(body, HEAD, sizeof HEAD);
    push_number(body, offset, 8);
    push(body, "\0\0\0\1\1\1t\0\0\0\2\2id\1", 15);
    push_number(body, (uint32_t)row->key, 4);
    push(body, "\1n\1", 3);
    push_number(body, (uint32_t)row->number, 4);
    partner->upto = offset;
    if (body->length > MOST_OPS) put(number);
}

static void send_all(const char *path, const char *folder, uint32_t many, uint64_t behind) {
    partners = calloc(many, sizeof *partners);
    partner_count = many;
    from = behind;
    mail = folder;
    mkdir(mail, 0777);
    uint64_t gate = HEADER + keep(path, send_row);
    Bytes note = {0};
    for (uint32_t number = 0; number < many; number++) {
        if (partners[number].body.length > 0) put(number);
        if (partners[number].files == 0) continue;
        note.length = 0;
        push(&note, "\0\0\0\0\6\5below\4", 12);
        push_number(&note, partners[number].upto, 8);
        push_number(&note, partners[number].files, 4);
        push_number(&note, 0, 8);
        commit(gate, &note);
        gate += note.length;
    }
}

/* Receiving: the files of a folder in the order of their names, each read and its digest made, and each transaction committed */
static int by_name(const struct dirent **left, const struct dirent **right) { return strcmp((*left)->d_name, (*right)->d_name); }

static int is_message(const struct dirent *entry) { return entry->d_name[0] != '.'; }

static uint32_t take_body(const byte *at, const byte *end, uint64_t *gate) {
    Bytes record = {0};
    uint32_t taken_here = 0;
    while (at < end) {
        check(end - at >= 34, "a transaction that ends early");
        int32_t key = u32(at + 23), number = u32(at + 30);
        record.length = 0;
        push(&record, "\0\0\0\0\2\5above", 11);
        push(&record, at, 34);
        push(&record, "\0\0\0\0\1", 5);
        push_change(&record, key, number);
        insert(key, number, NULL, 0);
        commit(*gate, &record);
        *gate += record.length;
        at += 34;
        taken_here++;
    }
    free(record.at);
    return taken_here;
}

static void take_all(const char *folder, const char *path) {
    struct dirent **names;
    uint64_t gate = HEADER + keep(path, NULL);
    uint32_t all = 0;
    int many = scandir(folder, &names, is_message, by_name);
    check(many >= 0, "no folder");
    for (int at = 0; at < many; at++) {
        char file[8192];
        byte sum[DIGEST];
        snprintf(file, sizeof file, "%s/%s", folder, names[at]->d_name);
        int message = open(file, O_RDONLY);
        check(message >= 0, "no message");
        Bytes bytes = read_all(message);
        close(message);
        digest(bytes.at, bytes.length - DIGEST, sum);
        check(memcmp(sum, bytes.at + bytes.length - DIGEST, DIGEST) == 0, "another digest");
        size_t names_end = 5 + 1 + bytes.at[5];
        names_end += 1 + bytes.at[names_end];
        size_t fragment = names_end + 8 + 8 + 8 + 4 + 4 + 4;
        all += take_body(bytes.at + fragment, bytes.at + fragment + u32(bytes.at + fragment - 4), &gate);
        free(bytes.at);
    }
    printf("%u\n", all);
}

/* How fast the machine is: a chain of steps each of which waits for the one before it, and pages that are touched for the first time */
enum { STEPS = 100000000, TOUCHED = 256 << 20, PAGE = 4096 };

static void measure_machine(void) {
    uint64_t state = 88172645463325252u;
    double begun = now();
    for (int step = 0; step < STEPS; step++) {
        state ^= state << 13;
        state ^= state >> 7;
        state ^= state << 17;
    }
    double processor = now() - begun;
    sink = state;
    begun = now();
    byte *memory = mmap(NULL, TOUCHED, PROT_READ | PROT_WRITE, MAP_PRIVATE | MAP_ANONYMOUS, -1, 0);
    check(memory != MAP_FAILED, "no memory");
    for (size_t at = 0; at < TOUCHED; at += PAGE) memory[at] = 1;
    printf("%f %f\n", processor, now() - begun);
}

static void measure_syncs(const char *path, int many) {
    Bytes record = {0};
    log_file = open(path, O_RDWR | O_CREAT | O_TRUNC, 0666);
    check(log_file >= 0, "no file");
    double begun = now();
    for (int at = 0; at < many; at++) {
        record.length = 4;
        reserve(&record, 60);
        memset(record.at, 0, 60);
        record.length = 59;
        commit(60 * (uint64_t)at, &record);
    }
    printf("%f\n", now() - begun);
}

/* Copies a file in place of another, or writes one byte where there is none to copy, and syncs it */
static void copy_file(const char *from, const char *into, const char *suffix) {
    char path[4096];
    static byte bytes[PIECE];
    snprintf(path, sizeof path, "%s.%s", into, suffix);
    int source = from ? open(from, O_RDONLY) : -1;
    int file = open(path, O_WRONLY | O_CREAT | O_TRUNC, 0666);
    check(file >= 0 && (source >= 0 || !from), "no file");
    ssize_t length = 1;
    while (!from || (length = read(source, bytes, PIECE)) > 0) {
        check(write(file, bytes, length) == length, "a write");
        if (!from) break;
    }
    check(length >= 0 && fdatasync(file) == 0, "a copy");
    close(file);
    close(source);
}

static void read_files(char **paths) {
    static byte bytes[PIECE];
    uint64_t sum = 0;
    for (; *paths; paths++) {
        int file = open(*paths, O_RDONLY);
        check(file >= 0, "no file");
        ssize_t length;
        while ((length = read(file, bytes, PIECE)) > 0) {
            for (ssize_t at = 0; at < length; at++) sum += bytes[at];
        }
        check(length == 0, "a read");
        close(file);
    }
    printf("%llu\n", (unsigned long long)sum);
}

/* A process begins with the peak of the one that it was in before, so that of what python3 runs is never less than its own: this one is small */
static int run_and_tell(const char *path, char **words) {
    struct rusage found;
    int status;
    pid_t child = fork();
    if (child == 0) {
        execv(words[0], words);
        _exit(127);
    }
    check(child > 0 && wait4(child, &status, 0, &found) == child, "no process");
    FILE *file = fopen(path, "w");
    check(file != NULL && fprintf(file, "%ld\n", found.ru_maxrss) > 0 && fclose(file) == 0, "a write");
    return WIFEXITED(status) ? WEXITSTATUS(status) : 128;
}

int main(int length, char **words) {
    const char *word = length > 1 ? words[1] : "";
    if (strcmp(word, "machine") == 0) {
        measure_machine();
    } else if (strcmp(word, "syncs") == 0 && length == 4) {
        measure_syncs(words[2], atoi(words[3]));
    } else if (strcmp(word, "keep") == 0 && length == 3) {
        keep(words[2], NULL);
        printf("%zu\n", count);
    } else if (strcmp(word, "sum") == 0 && length == 3) {
        Bytes none = {0};
        keep(words[2], NULL);
        walk_once("sum", &none);
        printf("%lld\n", (long long)sink);
    } else if (strcmp(word, "script") == 0 && length == 3) {
        run_script(words[2]);
    } else if (strcmp(word, "walk") == 0 && length >= 5) {
        Bytes script = {0};
        keep(words[2], NULL);
        int times = atoi(words[4]);
        double begun = now();
        for (int time = 0; time < times; time++) {
            int file = length > 5 ? open(words[5], O_RDONLY) : -1;
            if (file >= 0) script = read_all(file);
            walk_once(words[3], &script);
            if (file >= 0) {
                close(file);
                free(script.at);
            }
        }
        fprintf(stderr, "%f\n", (now() - begun) / times);
    } else if (strcmp(word, "send") == 0 && length == 6) {
        send_all(words[2], words[3], atoi(words[4]), strtoull(words[5], NULL, 10));
    } else if (strcmp(word, "take") == 0 && length == 4) {
        take_all(words[2], words[3]);
    } else if (strcmp(word, "copy") == 0 && length == 5) {
        copy_file(words[2], words[4], "snap");
        copy_file(words[3], words[4], "log");
        copy_file(NULL, words[4], "root");
    } else if (strcmp(word, "read") == 0 && length > 2) {
        read_files(words + 2);
    } else if (strcmp(word, "peak") == 0 && length > 3) {
        return run_and_tell(words[2], words + 3);
    } else {
        fail("other words");
    }
    return 0;
}
