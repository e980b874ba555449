/*
 * What tests/library runs in C: every call of sllink.h, and recordings that it compares with the
 * program's output.
 *
 *     library calls              each call that takes no recording
 *     library jobs < JOBS        what each job answers, and its text, with all kinds of room
 *     library memory < JOBS      the same, with each allocation refused in turn
 *     library stack < JOBS       how much stack a call takes
 *
 * A job is a line: VERB KIND MANAGED RECORDING OUTPUT, where MANAGED are the octets of an
 * sllink_managed in hexadecimal, and `same` as the verb has the second recording as its output.
 *
 * Status: 0 where all is as it should be, 1 where something isn't, which is named.
 */
#define _POSIX_C_SOURCE 200809L
#include <sllink.h>

#include <stdio.h>
#include <stdlib.h>
#include <string.h>
#include <ucontext.h>

static int failures;

static void complain(const char *what, int line) {
    fprintf(stderr, "FAILED: line %d: %s\n", line, what);
    failures++;
}

#define CHECK(that) ((that) ? (void)0 : complain(#that, __LINE__))

/* ---- memory ---- */

/* The linker leads the library's calls of malloc and realloc here. */
static long refused_one, asked;

void *__real_malloc(size_t size);
void *__real_realloc(void *block, size_t size);
void *__wrap_malloc(size_t size);
void *__wrap_realloc(void *block, size_t size);

void *__wrap_malloc(size_t size) {
    return ++asked == refused_one ? NULL : __real_malloc(size);
}

void *__wrap_realloc(void *block, size_t size) {
    return ++asked == refused_one ? NULL : __real_realloc(block, size);
}

/* A block of its own, so that what is read or written beside it is seen. */
static uint8_t *block_of(size_t length) {
    uint8_t *block = __real_malloc(length + (length == 0));
    if (block == NULL)
        exit(2);
    return block;
}

/* ---- recordings ---- */

typedef struct octets {
    uint8_t *at;
    size_t length;
} octets;

typedef sllink_answer engine(const sllink_managed *, const uint8_t *, size_t, uint8_t *, size_t,
                             size_t *, sllink_totals *);

#define KINDS(verb) {#verb, "tm", sllink_##verb##_tm}, {#verb, "tc", sllink_##verb##_tc}

static const struct {
    const char *verb, *kind;
    engine *call;
} engines[] = {KINDS(show), KINDS(check), KINDS(packets), KINDS(normalise)};

enum { ENGINES = sizeof engines / sizeof *engines, KEPT = 0xA5 };

/* What a call answers; its room, whose octets are the caller's to free; and the size and totals. */
typedef struct answered {
    sllink_answer answer;
    uint8_t *text;
    size_t size;
    sllink_totals totals;
} answered;

static const answered nothing_yet = {.size = 12345, .totals = {9, 9, 9, 9, 9, 9, 9}};

static bool same_numbers(const answered *a, const answered *b) {
    return a->size == b->size && memcmp(&a->totals, &b->totals, sizeof a->totals) == 0;
}

/* Whether all these octets are as they were. */
static bool are_kept(const uint8_t *octets, size_t length) {
    for (size_t i = 0; i < length; i++)
        if (octets[i] != KEPT)
            return false;
    return true;
}

/* A call with `room` octets of room, which are all looked at. */
static answered called(engine *call, const sllink_managed *managed, octets of, size_t room) {
    answered it = nothing_yet;
    it.text = block_of(room);
    memset(it.text, KEPT, room);
    it.answer = call(managed, of.at, of.length, it.text, room, &it.size, &it.totals);
    if (it.answer == SLLINK_DONE || it.answer == SLLINK_ROOM) {
        CHECK(it.answer == (it.size <= room ? SLLINK_DONE : SLLINK_ROOM));
        CHECK(it.size >= room || are_kept(it.text + it.size, room - it.size));
        CHECK(it.totals.octets == of.length);
    } else {
        CHECK(are_kept(it.text, room) && same_numbers(&it, &nothing_yet));
    }
    return it;
}

/* What is answered of a recording, and its text, if it has one: a call with some room, one with
 * enough, one with none, and around what is enough. */
static answered text_of(engine *call, const sllink_managed *managed, octets of) {
    answered some = called(call, managed, of, 100), whole;
    free(some.text);
    some.text = NULL;
    if (some.answer != SLLINK_ROOM && some.answer != SLLINK_DONE)
        return some;
    whole = called(call, managed, of, some.size);
    CHECK(whole.answer == SLLINK_DONE && same_numbers(&some, &whole));
    const size_t size = whole.size, rooms[] = {0, size - (size > 0), size, size + 1, size + 2};
    for (size_t i = 0; i < sizeof rooms / sizeof *rooms; i++) {
        answered other = called(call, managed, of, rooms[i]);
        CHECK(same_numbers(&whole, &other));
        CHECK(memcmp(other.text, whole.text, rooms[i] < size ? rooms[i] : size) == 0);
        free(other.text);
    }
    return whole;
}

typedef sllink_answer comparison(const sllink_managed *, const uint8_t *, size_t, const uint8_t *,
                                 size_t, bool *);

/* ---- jobs ---- */

typedef struct job {
    char verb[16], kind[4], path[512], output[512];
    sllink_managed managed;
    octets recording, other;
    engine *call;
    comparison *compare;
} job;

static octets octets_of(const char *path) {
    FILE *file = fopen(path, "rb");
    octets it = {NULL, 0};
    if (file != NULL && fseek(file, 0, SEEK_END) == 0) {
        it.length = (size_t)ftell(file);
        it.at = block_of(it.length);
        rewind(file);
    }
    if (it.at == NULL || fread(it.at, 1, it.length, file) != it.length || fclose(file) != 0) {
        perror(path);
        exit(2);
    }
    return it;
}

static bool next_job(job *it) {
    char managed[512];
    memset(it, 0, sizeof *it);
    if (scanf("%15s %3s %511s %511s %511s", it->verb, it->kind, managed, it->path, it->output) != 5)
        return false;
    CHECK(strlen(managed) == 2 * sizeof it->managed);
    for (size_t i = 0; i < sizeof it->managed; i++)
        CHECK(sscanf(managed + 2 * i, "%2hhx", (unsigned char *)&it->managed + i) == 1);
    it->recording = octets_of(it->path);
    for (int i = 0; i < ENGINES; i++)
        if (strcmp(engines[i].verb, it->verb) == 0 && strcmp(engines[i].kind, it->kind) == 0)
            it->call = engines[i].call;
    if (it->call == NULL) {
        it->compare = strcmp(it->kind, "tm") == 0 ? sllink_same_packets_tm : sllink_same_packets_tc;
        it->other = octets_of(it->output);
    }
    return true;
}

static void end_job(job *it) {
    free(it->recording.at);
    free(it->other.at);
}

/* What the call of a job answers; its text, if it has one, in so many octets of room. */
static sllink_answer answer_of(const job *it, uint8_t *text, size_t room, size_t *size,
                               bool *same) {
    sllink_totals totals;
    if (it->compare != NULL)
        return it->compare(&it->managed, it->recording.at, it->recording.length, it->other.at,
                           it->other.length, same);
    return it->call(&it->managed, it->recording.at, it->recording.length, text, room, size,
                    &totals);
}

static void jobs(void) {
    for (job it; next_job(&it); end_job(&it)) {
        if (it.compare != NULL) {
            /* a refusal leaves it as it was, whatever that is */
            bool same = true, other = false;
            sllink_answer answer = answer_of(&it, NULL, 0, NULL, &same);
            CHECK(answer_of(&it, NULL, 0, NULL, &other) == answer);
            CHECK(answer == SLLINK_DONE ? same == other : same && !other);
            printf("%s %s %d %s\n", it.path, it.output, (int)answer, same ? "same" : "other");
            continue;
        }
        answered found = text_of(it.call, &it.managed, it.recording);
        printf("%s %s %d\n", it.path, it.output, (int)found.answer);
        if (found.text == NULL)
            continue;
        FILE *file = fopen(it.output, "wb");
        if (file == NULL || fwrite(found.text, 1, found.size, file) != found.size
            || fclose(file) != 0)
            complain(it.output, __LINE__);
        free(found.text);
    }
}

/* Allocations are refused one by one: nothing is written then, and all blocks are given back, as
 * valgrind sees. */
static void memory(void) {
    long refusals = 0;
    for (job it; next_job(&it); end_job(&it)) {
        // Each of the first 31 allocations is refused, then every second one, and ever fewer of
        // the later ones.
        for (long which = 1;; which += 1 + which / 32) {
            bool same = which % 2;
            answered done = nothing_yet;
            asked = 0;
            refused_one = which;
            if (it.compare != NULL)
                done.answer = answer_of(&it, NULL, 0, NULL, &same);
            else
                done = called(it.call, &it.managed, it.recording, 1 << 20);
            refused_one = 0;
            free(done.text);
            if (asked < which) {
                CHECK(done.answer == SLLINK_DONE);
                break;
            }
            CHECK(done.answer == SLLINK_MEMORY && same == which % 2);
            refusals++;
        }
    }
    printf("%ld refusals\n", refusals);
}

/* ---- other calls ---- */

/* Blocks of so many octets, and room for texts. */
static uint8_t *exact[8], lent[1 << 16];

#define READ_AND_WRITTEN(name, size)                                                               \
    static sllink_##name a_##name;                                                                 \
    sllink_##name##_read(exact[size], &a_##name);                                                  \
    done |= sllink_##name##_write(&a_##name, exact[size]);

/* Each call that takes no recording; tests/library looks at what they answer. */
static void other_calls(void) {
    static sllink_farm f;
    static sllink_verdict verdict;
    unsigned done = sllink_farm_new(&f, 10, 0);
    done |= sllink_farm_clcw(&f, 63, exact[4]);
    for (unsigned event = 0; event < 4; event++)
        done |= sllink_farm_step(&f, (sllink_event)event, 9, &verdict);
    READ_AND_WRITTEN(tm_header, 6)
    READ_AND_WRITTEN(tc_header, 5)
    READ_AND_WRITTEN(segment_header, 1)
    READ_AND_WRITTEN(packet_header, 6)
    READ_AND_WRITTEN(clcw, 4)
    (void)(sllink_fecf(lent, sizeof lent) + sllink_farm_vr(&f));
    for (size_t length = 0; length < 8; length++)
        (void)(sllink_fecf(exact[length], length) + sllink_fecf_good(exact[length], length));
    CHECK(done == SLLINK_DONE);
}

/* ---- stack ---- */

enum { STACK = 1 << 20, RECORDINGS_STACK = 256 << 10, OTHER_STACK = 8 << 10 };

static job the_job;

static void answer_the_job(void) {
    size_t size;
    bool same;
    (void)answer_of(&the_job, lent, sizeof lent, &size, &same);
}

/* How much of a stack of its own is touched by what does this. */
static size_t touched(void (*does)(void)) {
    static uint8_t stack[STACK];
    static ucontext_t here, there;
    size_t left = 0;
    memset(stack, KEPT, STACK);
    CHECK(getcontext(&there) == 0);
    there.uc_stack.ss_sp = stack;
    there.uc_stack.ss_size = STACK;
    there.uc_link = &here;
    makecontext(&there, does, 0);
    CHECK(swapcontext(&here, &there) == 0);
    while (left < STACK && stack[left] == KEPT)
        left++;
    return STACK - left;
}

/* A call takes no more stack than the header says. */
static void stack(void) {
    size_t most = 0, other = touched(other_calls);
    for (; next_job(&the_job); end_job(&the_job)) {
        size_t found = touched(answer_the_job);
        most = found > most ? found : most;
    }
    CHECK(most <= RECORDINGS_STACK);
    CHECK(other <= OTHER_STACK);
    printf("%zu octets of stack, other calls %zu\n", most, other);
}

int main(int argc, char **argv) {
    static const struct {
        const char *name;
        void (*runs)(void);
    } modes[] = {{"calls", other_calls}, {"jobs", jobs}, {"memory", memory}, {"stack", stack}};
    for (size_t length = 0; length < 8; length++)
        exact[length] = memset(block_of(length), 0, length);
    for (size_t i = 0; argc == 2 && i < sizeof modes / sizeof *modes; i++)
        if (strcmp(argv[1], modes[i].name) == 0) {
            modes[i].runs();
            for (size_t length = 0; length < 8; length++)
                free(exact[length]);
            return failures > 0;
        }
    fprintf(stderr, "library: calls, jobs, memory, or stack\n");
    return 2;
}
