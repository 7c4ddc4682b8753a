// The work that no program gets around in the cases of benches/floors, and nothing else: the job's text is walked, the
// files get the same writes in the same order, each with its sync, and as much text is put. A block is read where the
// head comes to it, and kept while it stays there; what was read is put at once, so no history is kept.
//
// usage: floors STEP [NUMBER..] ..    does the steps one after the other, on the site of the folder it is run in
//        floors time PROGRAM WORD..   runs the program, and tells on standard error the microseconds that passed, those
//                                     that it had a processor, and the kilobytes of memory that it had at most
#define _GNU_SOURCE
#include <fcntl.h>
#include <stdio.h>
#include <stdlib.h>
#include <string.h>
#include <sys/file.h>
#include <sys/resource.h>
#include <sys/stat.h>
#include <sys/wait.h>
#include <time.h>
#include <unistd.h>

enum { BLOCK = 16384, ROW = 512, GATES = 128, FIRST = 256 };
enum { TRACKS = 19, CYLINDERS_OF_PAGE = 8 };
enum { TEXT = 4194304, OUT = 65536 };

static int folder = -1, tables[2], frames;
static unsigned char block[BLOCK], out[OUT];
static size_t waiting;

static long must(long result, const char *what) {
    if (result < 0) {
        perror(what);
        exit(1);
    }
    return result;
}

// --- Text that is put: a number in decimal digits, bytes in digits of a table, all of it behind one buffer.

static void flush(void) {
    for (size_t done = 0; done < waiting;)
        done += must(write(STDOUT_FILENO, out + done, waiting - done), "write");
    waiting = 0;
}

static void put(const void *bytes, size_t length) {
    if (waiting + length > OUT)
        flush();
    memcpy(out + waiting, bytes, length);
    waiting += length;
}

static void put_number(unsigned number) {
    char digits[10], *first = digits + sizeof digits;
    do
        *--first = '0' + number % 10;
    while (number /= 10);
    put(first, digits + sizeof digits - first);
}

static void put_entry(unsigned number) {
    put("entry ", 6);
    put_number(number);
    put(" host 1 ccw 31 status 0C", 24);
}

static void put_hex(const unsigned char *bytes, size_t length) {
    static char pairs[256][2];
    if (!pairs[0][0])
        for (int byte = 0; byte < 256; byte++)
            memcpy(pairs[byte], (char[]){"0123456789ABCDEF"[byte / 16], "0123456789ABCDEF"[byte % 16]}, 2);
    while (length > 0) {
        size_t count = length < OUT / 2 ? length : OUT / 2;
        if (waiting + 2 * count > OUT)
            flush();
        for (size_t at = 0; at < count; at++)
            memcpy(out + waiting + 2 * at, pairs[bytes[at]], 2);
        waiting += 2 * count, bytes += count, length -= count;
    }
}

// entries N: the lines of so many entries.
static void entries(const long *numbers) {
    for (long number = 1; number <= numbers[0]; number++) {
        put_entry(number);
        put("\n", 1);
    }
}

// changes N: the lines of so many changes of the table.
static void changes(const long *numbers) {
    for (long number = 1; number <= numbers[0]; number++) {
        put("change ", 7);
        put_number(number);
        put(" volume 0 staged cylinder 10\n", 29);
    }
}

// data N BYTES: the lines of N entries that give so many bytes of the block.
static void data(const long *numbers) {
    for (long number = 1; number <= numbers[0]; number++) {
        put_entry(number);
        put(" data ", 6);
        put_hex(block + FIRST, numbers[1]);
        put("\n", 1);
    }
}

// --- The job.

struct command {
    unsigned code, length;
    unsigned char *argument;
};

static int value(char digit) {
    return digit <= '9' ? digit - '0' : digit - 'A' + 10;
}

static unsigned char *bytes_of(const char *from, const char *to, unsigned char *into) {
    for (; from + 1 < to; from += 2)
        *into++ = value(from[0]) * 16 + value(from[1]);
    return into;
}

// walk: a job of standard input, each byte looked at, each line cut at its spaces, each command kept with its bytes.
static void walk(const long *numbers) {
    (void)numbers;
    char *text = malloc(TEXT + 1), *words[8];
    unsigned char *arguments = malloc(TEXT);
    struct command *commands = malloc(TEXT / 6 * sizeof *commands);
    size_t length = 0, count = 0;
    for (long got; (got = must(read(STDIN_FILENO, text + length, TEXT + 1 - length), "read")) > 0;)
        length += got;
    for (char *at = text, *end = text + length; at < end; at++) {
        int word = 0;
        words[0] = at;
        for (; at < end && *at != '\n'; at++) {
            if (*at < ' ' || *at > '~')
                exit(3);
            if (*at == ' ' && word < 6)
                words[++word] = at + 1;
        }
        words[word + 1] = at + 1;
        if (word == 0 || words[0][0] != 'c')
            continue;
        struct command *made = &commands[count++];
        made->code = value(words[1][0]) * 16 + value(words[1][1]);
        made->argument = arguments;
        if (word == 2)
            arguments = bytes_of(words[2], words[3] - 1, arguments);
        made->length = arguments - made->argument;
    }
}

// fill N BYTES: so many arguments of so many bytes, kept to the end and then let go of.
static void fill(const long *numbers) {
    unsigned char **kept = malloc(numbers[0] * sizeof *kept);
    for (long number = 0; number < numbers[0]; number++)
        kept[number] = memset(malloc(numbers[1]), (int)number, numbers[1]);
    for (long number = 0; number < numbers[0]; number++)
        free(kept[number]);
    free(kept);
}

// lists N LENGTH BYTES: so many lists, each of which grows by doubling to so many items of so many bytes.
static void lists(const long *numbers) {
    char **kept = malloc(numbers[0] * sizeof *kept);
    for (long list = 0; list < numbers[0]; list++) {
        char *items = NULL;
        for (long number = 0, room = 0; number < numbers[1]; number++) {
            if (number == room)
                items = realloc(items, (room = room ? 2 * room : 4) * numbers[2]);
            memset(items + number * numbers[2], (int)number, numbers[2]);
        }
        kept[list] = items;
    }
    for (long list = 0; list < numbers[0]; list++)
        free(kept[list]);
    free(kept);
}

// keep N BYTES: so many bytes of the block, copied N times, as a history keeps what a command read.
static void keep(const long *numbers) {
    for (long number = 0; number < numbers[0]; number++)
        memcpy(malloc(numbers[1]), block + FIRST, numbers[1]);
}

// --- Files: a write is one call, and one more that makes it last.

static void put_into(int file, long at, const void *bytes, size_t length) {
    must(pwrite(file, bytes, length, at), "pwrite");
    must(fdatasync(file), "fdatasync");
}

static int made_file(const char *path) {
    int file = must(open(path, O_RDWR | O_CREAT | O_CLOEXEC, 0666), path);
    must(fsync(folder), "fsync");
    return file;
}

static void hold_folder(void) {
    folder = must(open("mss.site", O_RDONLY | O_CLOEXEC), "mss.site");
    must(flock(folder, LOCK_EX | LOCK_NB), "flock");
}

// create VOLUMES: the folder with its lock, the two files of the table, and six writes a row.
static void create(const long *numbers) {
    must(mkdir("mss.site", 0777), "mkdir");
    hold_folder();
    tables[0] = made_file("mss.site/table_a");
    tables[1] = made_file("mss.site/table_b");
    int above = must(open("mss.site/..", O_RDONLY | O_CLOEXEC), "open");
    must(fsync(above), "fsync");
    close(above);
    for (long volume = 0; volume < numbers[0]; volume++) {
        for (int copy = 0; copy < 2; copy++)
            put_into(tables[copy], volume * BLOCK + 511, "M", 1);
        for (int copy = 0; copy < 2; copy++) {
            put_into(tables[copy], volume * BLOCK + 1, block, 510);
            put_into(tables[copy], volume * BLOCK, "\xC1", 1);
        }
    }
}

static void change_row(void) {
    for (int copy = 0; copy < 2; copy++) {
        put_into(tables[copy], 0, "", 1);
        put_into(tables[copy], 1, block, 510);
        put_into(tables[copy], 0, "\xC1", 1);
    }
}

// stage C: so many blank cylinders in a row, each of 19 blocks, with their changes of the table.
static void stage(const long *numbers) {
    frames = made_file("mss.site/staging_0");
    for (long cylinder = 0; cylinder < numbers[0]; cylinder++) {
        if (cylinder % CYLINDERS_OF_PAGE == 0)
            change_row();
        for (long track = 0; track < TRACKS; track++)
            put_into(frames, (cylinder * TRACKS + track) * BLOCK, block, BLOCK);
        change_row();
    }
}

// mark C: the change of the table before the first write on each of so many cylinders.
static void mark(const long *numbers) {
    for (long cylinder = 0; cylinder < numbers[0]; cylinder++)
        change_row();
}

// format N GATES BYTES: N records of so many bytes with their counts, each behind GATES closings of its gate.
static void format(const long *numbers) {
    for (long number = 0; number < numbers[0]; number++) {
        for (long gate = 0; gate < numbers[1]; gate++)
            put_into(frames, GATES + 1, "", 1);
        put_into(frames, FIRST, block, numbers[2] + 8);
        put_into(frames, GATES + 1, "\xC1", 1);
    }
}

// update N BYTES: so many bytes of a record written N times.
static void update(const long *numbers) {
    for (long number = 0; number < numbers[0]; number++)
        put_into(frames, FIRST + 8, block, numbers[1]);
}

// search N RECORDS: N times the IDs of so many records looked at, of a block that is kept.
static void search(const long *numbers) {
    static volatile long met;
    unsigned char wanted[5] = {0, 100, 0, 0, 97};
    for (long number = 0; number < numbers[0]; number++)
        for (long record = 0, at = FIRST; record < numbers[1]; record++, at += 8)
            met += memcmp(block + at, wanted, sizeof wanted) == 0;
}

static long read_blocks(int file, long first, long count) {
    long open_gates = 0;
    for (long number = 0; number < count; number++) {
        must(pread(file, block, BLOCK, (first + number) * BLOCK), "pread");
        open_gates += block[GATES + 1] == 0xC1;
    }
    return open_gates;
}

// scan N TRACKS: N times so many blocks one after the other, as a head goes over them.
static void scan(const long *numbers) {
    for (long number = 0; number < numbers[0]; number++)
        read_blocks(frames, 0, numbers[1]);
}

// again N: one block read N times, where the head comes to it anew.
static void again(const long *numbers) {
    for (long number = 0; number < numbers[0]; number++)
        read_blocks(frames, 0, 1);
}

// tell C BYTES: the blocks of so many staged cylinders, each that has a record as a track with one of so many bytes.
static void tell(const long *numbers) {
    for (long number = 0; number < numbers[0] * TRACKS; number++)
        if (read_blocks(frames, number, 1)) {
            put("track 1 1\nrecord ", 17);
            put_hex(block + FIRST, 5);
            put(" - ", 3);
            put_hex(block + FIRST + 8, numbers[1]);
            put("\n", 1);
        }
}

// survey VOLUMES C: a site that is there: both copies of each row, and each block of so many staged cylinders.
static void survey(const long *numbers) {
    hold_folder();
    for (int copy = 0; copy < 2; copy++) {
        tables[copy] = must(open(copy ? "mss.site/table_b" : "mss.site/table_a", O_RDWR | O_CLOEXEC), "table");
        for (long volume = 0; volume < numbers[0]; volume++)
            must(pread(tables[copy], block, ROW, volume * BLOCK), "pread");
    }
    if (numbers[1] > 0)
        frames = must(open("mss.site/staging_0", O_RDWR | O_CLOEXEC), "staging_0");
    read_blocks(frames, 0, numbers[1] * TRACKS);
}

static const struct step {
    const char *name;
    void (*go)(const long *numbers);
    int numbers;
} STEPS[] = {
    {"walk", walk, 0},     {"fill", fill, 2},       {"keep", keep, 2},       {"create", create, 1},
    {"survey", survey, 2}, {"stage", stage, 1},     {"mark", mark, 1},       {"search", search, 2},
    {"scan", scan, 2},     {"again", again, 1},     {"update", update, 2},   {"format", format, 3},
    {"entries", entries, 1}, {"changes", changes, 1}, {"data", data, 2},     {"tell", tell, 2},
    {"lists", lists, 3},
};

// Runs a program and waits for its end. A small process does so, since a child has its parent's memory until it runs a
// program, and that counts as its own.
static int time_program(char **words) {
    struct timespec before, after;
    struct rusage used;
    int status;
    clock_gettime(CLOCK_MONOTONIC, &before);
    pid_t child = must(fork(), "fork");
    if (child == 0) {
        execv(words[0], words);
        _exit(127);
    }
    must(wait4(child, &status, 0, &used), "wait4");
    clock_gettime(CLOCK_MONOTONIC, &after);
    long passed = (after.tv_sec - before.tv_sec) * 1000000 + (after.tv_nsec - before.tv_nsec) / 1000;
    long had = (used.ru_utime.tv_sec + used.ru_stime.tv_sec) * 1000000 + used.ru_utime.tv_usec + used.ru_stime.tv_usec;
    fprintf(stderr, "%ld %ld %ld\n", passed, had, used.ru_maxrss);
    return WIFEXITED(status) ? WEXITSTATUS(status) : 128;
}

int main(int count, char **words) {
    if (count > 2 && strcmp(words[1], "time") == 0)
        return time_program(words + 2);
    for (int at = 1; at < count;) {
        const struct step *step = STEPS, *end = STEPS + sizeof STEPS / sizeof *STEPS;
        while (step < end && strcmp(step->name, words[at]))
            step++;
        if (step == end || at + step->numbers >= count) {
            fprintf(stderr, "floors: no step %s\n", words[at]);
            return 2;
        }
        long numbers[3] = {0};
        for (int number = 0; number < step->numbers; number++)
            numbers[number] = atol(words[at + 1 + number]);
        step->go(numbers);
        at += 1 + step->numbers;
    }
    flush();
    return 0;
}
