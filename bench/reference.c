/* A hand-written program for the verbs of sllink, to measure sllink against. Nothing of it is proved.
 *
 *     cc -O3 -march=x86-64-v3 -mpclmul -o reference bench/reference.c
 *     reference show|check|packets|normalise tm|tc --scid N [OPTION..] < RECORDING
 *
 * OPTION is --tm-length N, --tc-length N, --tm-fecf or --tc-fecf. With these it writes what sllink writes, for every
 * recording. It has no other option of sllink, and explains no refused word. A fault ends it with status 3.
 *
 * It goes once over the recording in one fixed buffer, and takes no memory for a packet. `normalise` joins the packets
 * of a channel end to end in one vector. With --vectors each packet is kept in a vector of its own, as sllink's store
 * does. It wants a processor with AVX2 and carry-less multiplication.
 */
#include <immintrin.h>
#include <stdarg.h>
#include <stdbool.h>
#include <stdint.h>
#include <stdio.h>
#include <stdlib.h>
#include <string.h>
#include <sys/mman.h>
#include <sys/uio.h>
#include <unistd.h>

#define ALWAYS static inline __attribute__((always_inline))
#define NEVER static __attribute__((noinline))
#define LIKELY(x) __builtin_expect(!!(x), 1)
#define UNLIKELY(x) __builtin_expect(!!(x), 0)

typedef uint8_t octet;

enum { PAGE = 4096, CHUNK = 1 << 16, MAPPED = 1 << 18, AT_ONCE = 1 << 17 };
enum { LONGEST_FRAME = 2048, LONGEST_PACKET = 65542, LONGEST_LINE = 256 };     /* a line without a packet's octets */
enum { SLACK = 128 };               /* octets beside those that are meant, read or written where it saves a branch */
enum verb { SHOW, CHECK, PACKETS, JOIN, VECTORS };      /* JOIN is `normalise` with packets joined */
enum kind { TM, TC };
enum { HALF_WINDOW = 5 };

/* The managed parameters. */
static unsigned spacecraft, tm_length = 1115, tc_length = 1024;
static bool tm_fecf, tc_fecf;
static unsigned field_room;                             /* octets of a data field of the TM normal form */

static struct { unsigned long long frames, skipped, packets, idle, anomalies; } totals;

NEVER _Noreturn void stop(int status, const char *why)
{
    fprintf(stderr, "reference: %s\n", why);
    exit(status);
}

/* ---- Output ---- */

/* Less than a chunk waits when a line or a frame is added. The longest line is that of a packet of 65,542 octets. */
static octet output[SLACK + CHUNK + 2 * LONGEST_PACKET + LONGEST_LINE + SLACK];
static octet *const out = output + SLACK;
static octet *end_of_output = output + SLACK;

static void write_parts(struct iovec *parts, int number)
{
    while (number) {
        ssize_t written = writev(1, parts, number);
        if (written <= 0) stop(3, "write");
        for (; number && (size_t)written >= parts->iov_len; parts++, number--) written -= (ssize_t)parts->iov_len;
        if (number) parts->iov_base = (octet *)parts->iov_base + written, parts->iov_len -= (size_t)written;
    }
}

NEVER void write_out(void)
{
    if (end_of_output != out) write_parts(&(struct iovec){out, (size_t)(end_of_output - out)}, 1);
    end_of_output = out;
}

/* A place for a line or a frame. */
ALWAYS octet *next_place(void)
{
    if (UNLIKELY(end_of_output >= out + CHUNK)) write_out();
    return end_of_output;
}

/* ---- Text ---- */

static char pairs[100][2], hex[256][2], numbers[256][4];        /* 00 to 99, 00 to ff, 0 to 255 */
static octet widths[256];                                       /* of these numbers */
enum { OF_FLAGS = 34, OF_CONTROL = 42, OF_CLCW = 8 };           /* octets of a text */
static char packet_texts[16][48], control_texts[32][48], segment_texts[256][32];
static octet segment_widths[256];

ALWAYS octet *put(octet *at, const char *text, size_t width) { return (octet *)memcpy(at, text, width) + width; }
#define TEXT(at, literal) put(at, literal, sizeof literal - 1)

/* A text of at most so many octets, which are written whole. */
#define PADDED(at, text, most, width) (put(at, text, most) - (most) + (width))

/* A number of one octet. */
ALWAYS octet *put_octet(octet *at, unsigned n) { return PADDED(at, numbers[n], 4, widths[n]); }

/* Texts that few bits decide; at the end those of a packet's type and flags, of a CLCW's flags, of a segment header. */
static void make_texts(void)
{
    static const char *const flags[] = {" segment middle map ", " segment first map ", " segment last map ",
                                        " segment whole map "};
    for (int n = 0; n < 256; n++) {
        hex[n][0] = "0123456789abcdef"[n >> 4], hex[n][1] = "0123456789abcdef"[n & 15];
        if (n < 100) pairs[n][0] = (char)('0' + n / 10), pairs[n][1] = (char)('0' + n % 10);
        widths[n] = n < 10 ? 1 : n < 100 ? 2 : 3;
        for (int rest = n, at = widths[n]; at--; rest /= 10) numbers[n][at] = (char)('0' + rest % 10);
    }
    for (unsigned n = 0; n < 256; n++) {
        octet *text = (octet *)segment_texts[n], *at = put(text, flags[n >> 6], strlen(flags[n >> 6]));
        segment_widths[n] = (octet)(TEXT(put_octet(at, n & 63), " octets ") - text);
    }
    for (int n = 0; n < 32; n++) {
        sprintf(packet_texts[n & 15], " type %d secondary %d flags %d count ", n >> 3 & 1, n >> 2 & 1, n & 3);
        sprintf(control_texts[n], " lockout %d wait %d retransmit %d farmb %d vr ", n >> 4, n >> 3 & 1, n >> 2 & 1,
                n & 3);
    }
}

ALWAYS octet *put_four(octet *at, unsigned n) { return put(put(at, pairs[n / 100], 2), pairs[n % 100], 2); }

ALWAYS octet *put_number(octet *at, uint64_t n)
{
    if (LIKELY(n < 256)) return put_octet(at, (unsigned)n);
    if (LIKELY(n < 10000)) return put(put_octet(at, (unsigned)n / 100), pairs[n % 100], 2);
    if (LIKELY(n < 2560000)) return put_four(put_octet(at, (unsigned)n / 10000), (unsigned)n % 10000);
    return at + sprintf((char *)at, "%llu", (unsigned long long)n);
}

/* Offsets rise, so the digits before the last four stay for a while. */
ALWAYS octet *put_offset(octet *at, uint64_t offset)
{
    static uint64_t leading;
    static octet text[32];
    static unsigned width;
    uint64_t high = offset / 10000;
    if (UNLIKELY(high == 0)) return put_number(at, offset);
    if (UNLIKELY(high != leading)) leading = high, width = (unsigned)(put_number(text, high) - text);
    return put_four(PADDED(at, (char *)text, 16, width), (unsigned)(offset - 10000 * high));
}

ALWAYS void end_line(octet *at) { *at = '\n', end_of_output = at + 1; }

/* A line that begins with an offset. */
#define LINE(offset, literal) TEXT(put_offset(next_place(), offset), literal)

/* One that is rare, with what is unusual. */
NEVER void say(uint64_t offset, const char *format, ...)
{
    octet *at = LINE(offset, " ");
    va_list words;
    va_start(words, format);
    end_line(at + vsprintf((char *)at, format, words));
    va_end(words);
    totals.anomalies++;
}

/* Octets in hexadecimal: sixty-four at once, and as many behind them as there are up to a multiple. */
static octet *put_hex(octet *at, const octet *from, size_t octets)
{
    const __m256i digits = _mm256_broadcastsi128_si256(_mm_loadu_si128((const void *)"0123456789abcdef"));
    const __m256i low = _mm256_set1_epi8(15);
    for (size_t begin = 0; begin < octets; begin += 64) {
#pragma GCC unroll 2
        for (size_t i = begin; i < begin + 64; i += 32) {
            __m256i it = _mm256_permute4x64_epi64(_mm256_loadu_si256((const void *)(from + i)), 0xD8);
            __m256i first = _mm256_shuffle_epi8(digits, _mm256_and_si256(_mm256_srli_epi16(it, 4), low));
            __m256i second = _mm256_shuffle_epi8(digits, _mm256_and_si256(it, low));
            _mm256_storeu_si256((void *)(at + 2 * i), _mm256_unpacklo_epi8(first, second));
            _mm256_storeu_si256((void *)(at + 2 * i + 32), _mm256_unpackhi_epi8(first, second));
        }
    }
    return at + 2 * octets;
}

/* ---- Error control: the remainder by x^16 + x^12 + x^5 + 1 ---- */

/* Powers of x modulo this: by x^576 and x^512 the two halves of a block pass over four blocks; by eight more they come
 * to the end, from each of the last four. Then x^64, with its quotient, and the generator. */
#define OVER_FOUR _mm_set_epi64x(0x8832, 0x13FC)
#define TO_THE_END {_mm_set_epi64x(0x9FE5, 0xBD64), _mm_set_epi64x(0xB8E0, 0x8DDC), _mm_set_epi64x(0x45B4, 0x10E2), \
                    _mm_set_epi64x(0xEB23, 0x1021)}
#define OF_64 _mm_set_epi64x(0x111303471A041, 0xB861)
#define GENERATOR _mm_set_epi64x(0, 0x11021)

/* Four blocks of sixteen octets, as polynomials. */
struct four { __m128i blocks[4]; };

ALWAYS __m128i sum_of(__m128i a, __m128i b) { return _mm_xor_si128(a, b); }
ALWAYS __m256i sum(__m256i a, __m256i b) { return _mm256_xor_si256(a, b); }
ALWAYS __m256i vector_at(const octet *at) { return _mm256_loadu_si256((const void *)at); }

ALWAYS __m128i passed(__m128i it, __m128i over)
{
    return sum_of(_mm_clmulepi64_si128(it, over, 0x11), _mm_clmulepi64_si128(it, over, 0x00));
}

ALWAYS struct four turned(__m256i first, __m256i second)
{
    const __m128i order = _mm_set_epi8(0, 1, 2, 3, 4, 5, 6, 7, 8, 9, 10, 11, 12, 13, 14, 15);
    first = _mm256_shuffle_epi8(first, _mm256_broadcastsi128_si256(order));
    second = _mm256_shuffle_epi8(second, _mm256_broadcastsi128_si256(order));
    return (struct four){{_mm256_castsi256_si128(first), _mm256_extracti128_si256(first, 1),
                          _mm256_castsi256_si128(second), _mm256_extracti128_si256(second, 1)}};
}

ALWAYS struct four folded(struct four it, struct four next)
{
    for (int i = 0; i < 4; i++) next.blocks[i] = sum_of(next.blocks[i], passed(it.blocks[i], OVER_FOUR));
    return next;
}

/* The remainder of four blocks and sixteen zeros: to 80 bits, to 64, and by the quotient of these (Barrett). */
ALWAYS uint16_t remainder_of(struct four it)
{
    const __m128i to_the_end[4] = TO_THE_END;
    __m128i rest = _mm_setzero_si128();
    for (int i = 0; i < 4; i++) rest = sum_of(rest, passed(it.blocks[i], to_the_end[i]));
    rest = sum_of(rest, _mm_clmulepi64_si128(rest, OF_64, 0x01));
    __m128i times = _mm_clmulepi64_si128(rest, OF_64, 0x10);
    return (uint16_t)_mm_cvtsi128_si32(sum_of(rest, _mm_clmulepi64_si128(times, GENERATOR, 0x01)));
}

/* The upper half of a vector, and the lower half of the next one. */
#define BETWEEN(a, b) _mm256_permute2x128_si256(a, b, 0x21)

/* Since x^16 = x^12 + x^5 + 1, and so for the squares, octets count as much as they do 64, 176 and 256 places later,
 * all three added. So vectors are added to later ones until eight are left. s1 to s8: those before, the last first. */
ALWAYS uint16_t crc_of_long(__m256i first, __m256i second, __m256i carry, const octet *at, const octet *end)
{
    const __m256i zero = _mm256_setzero_si256();
    __m256i s1 = second, s2 = first, s3 = zero, s4 = zero, s5 = zero, s6 = zero, s7 = zero, s8 = carry;
#pragma GCC unroll 4
    for (; end - at > 256; at += 64) {
        __m256i one = sum(sum(vector_at(at), s8), sum(BETWEEN(s6, s5), s2));
        __m256i two = sum(sum(vector_at(at + 32), s7), sum(BETWEEN(s5, s4), s1));
        s8 = s6, s7 = s5, s6 = s4, s5 = s3, s4 = s2, s3 = s1, s2 = one, s1 = two;
    }
    /* The last eight, and at once the same with 32, 88 and 128 places. */
#define BESIDE(a, b) _mm256_alignr_epi8(BETWEEN(a, b), a, 8)
    __m256i t0 = sum(sum(vector_at(at), s8), sum(BETWEEN(s6, s5), s2));
    __m256i t1 = sum(sum(sum(vector_at(at + 32), s7), sum(BETWEEN(s5, s4), s1)), t0);
    __m256i t2 = sum(sum(sum(vector_at(at + 64), s6), BETWEEN(s4, s3)), sum(BESIDE(zero, t0), t1));
    __m256i t3 = sum(sum(sum(vector_at(at + 96), s5), BETWEEN(s3, s2)), sum(BESIDE(t0, t1), t2));
    __m256i t4 = sum(sum(sum(vector_at(at + 128), s4), BETWEEN(s2, s1)), sum(sum(BESIDE(t1, t2), t0), t3));
    __m256i t5 = sum(sum(sum(vector_at(at + 160), s3), BETWEEN(s1, zero)), sum(BESIDE(t2, t3), t1));
    __m256i t6 = sum(sum(vector_at(at + 192), s2), sum(BESIDE(t3, zero), t2));
    __m256i t7 = sum(sum(vector_at(at + 224), s1), t3);
    return remainder_of(folded(turned(t4, t5), turned(t6, t7)));
}

/* Octets in front of a message are read with it, and made zeros, which change no remainder there. From n on MASK keeps
 * the last n octets of 64, and `preset` adds what the register has to the first two of these. */
static const octet MASK[128] = {[64 ... 127] = 0xFF};
static octet preset[192];

static uint16_t crc(uint16_t it, const octet *from, size_t octets)
{
    if (UNLIKELY((preset[64] << 8 | preset[65]) != it)) preset[64] = (octet)(it >> 8), preset[65] = (octet)it;
    size_t front = ((octets - 1) & 63) + 1;
    const octet *end = from + octets, *at = from + front, *mask = MASK + front, *before = preset + front;
    __m256i first = sum(_mm256_and_si256(vector_at(at - 64), vector_at(mask)), vector_at(before));
    __m256i second = sum(_mm256_and_si256(vector_at(at - 32), vector_at(mask + 32)), vector_at(before + 32));
    if (octets <= 64) return remainder_of(turned(first, second));
    __m256i carry = vector_at(before + 64);             /* not zeros where the first two octets lie apart */
    if (octets > 256) return crc_of_long(first, second, carry, at, end);
    struct four sums = folded(turned(first, second), turned(sum(vector_at(at), carry), vector_at(at + 32)));
    for (at += 64; at < end; at += 64) sums = folded(sums, turned(vector_at(at), vector_at(at + 32)));
    return remainder_of(sums);
}

ALWAYS unsigned two_at(const octet *at) { return (unsigned)(at[0] << 8 | at[1]); }
ALWAYS void put_two(octet *at, unsigned n) { at[0] = (octet)(n >> 8), at[1] = (octet)n; }
ALWAYS bool is_right(const octet *frame, size_t length)
{
    return crc(0xFFFF, frame, length - 2) == two_at(frame + length - 2);
}

/* ---- Input ---- */

/* The system copies fastest to where a page begins, so what is read comes there. What waits lies right before it. */
static octet buffer[PAGE + CHUNK + SLACK] __attribute__((aligned(PAGE)));
static const octet *in = buffer + PAGE;                 /* where the octets that wait begin */
static size_t held;                                     /* how many these are */

/* Reads more behind the octets from here on, which go on waiting: less than a frame. False at the end. */
NEVER bool read_more(const octet *rest, size_t octets)
{
    in = memmove(buffer + PAGE - octets, rest, octets);
    write_out();
    ssize_t got = read(0, buffer + PAGE, CHUNK);
    if (got < 0) stop(3, "read");
    held = octets + (size_t)got;
    return got > 0;
}

/* The frame that is taken. */
static struct { uint64_t offset; unsigned vc; } here;

/* A line of `check` on what is unusual. */
#define TELL(...) do { if (verb == CHECK) say(here.offset, __VA_ARGS__); } while (0)

/* ---- Packets ---- */

ALWAYS bool is_idle(const octet *packet) { return (packet[0] & 7) == 7 && packet[1] == 255; }
ALWAYS unsigned length_of(const octet *packet) { return two_at(packet + 4) + 7; }
ALWAYS bool is_foreign(octet first) { return first > 31; }

/* What is kept of a channel: joined packets, and behind them what is incomplete; or vectors. */
struct list {
    octet *octets;
    size_t size, more, room, ready;     /* of the joined ones; of what is incomplete; in all; taken from the system */
    octet **vectors;
    size_t number, most;
    /* Of joined TM packets: the first header pointer of each data field so far, and where these end. */
    uint16_t *pointers;
    size_t fields, room_for_fields, border;
};

static void *memory(void *it, size_t octets)
{
    it = realloc(it, octets);
    if (!it) stop(3, "memory");
    return it;
}

/* What has outgrown a page gets room of its own from the system, which grows without a copy and takes memory only as
 * octets come. Where it is long, pages are taken some at once, since each alone costs a fault. */
NEVER void grow(struct list *it, size_t wanted)
{
    if (wanted > it->room) {
        it->room = !it->room ? PAGE : it->room < MAPPED ? MAPPED : it->room * 2;
        while (it->room < wanted) it->room *= 2;
        it->octets = (octet *)memory(it->octets ? it->octets - SLACK : NULL, SLACK + it->room) + SLACK;
    }
    it->ready = it->room;
    if (it->room <= MAPPED) return;
    octet *at = it->octets + it->size + it->more;
    at -= (uintptr_t)at % PAGE;
    size_t next = (size_t)(at + AT_ONCE - it->octets);
    it->ready = next < wanted ? wanted : next < it->room ? next : it->room;
    madvise(at, (size_t)(it->octets + it->ready - at), MADV_POPULATE_WRITE);
}

/* Copies octets behind what is there; a few of them, without a branch on how many. They may lie there already. */
ALWAYS void keep(struct list *it, const octet *from, size_t octets)
{
    size_t end = it->size + it->more;
    if (UNLIKELY(end + octets + SLACK > it->ready)) grow(it, end + octets + SLACK);
    octet *to = it->octets + end;
    if (octets <= 64 && LIKELY((uintptr_t)from - (uintptr_t)it->octets >= it->room)) memcpy(to, from, 64);
    else if (to != from) memmove(to, from, octets);
}

/* Adds octets to what is incomplete; which becomes whole with them. */
ALWAYS void add(struct list *it, const octet *from, size_t octets) { keep(it, from, octets), it->more += octets; }
ALWAYS void join(struct list *it, const octet *from, size_t octets)
{
    keep(it, from, octets);
    it->size += it->more + octets, it->more = 0;
}

ALWAYS void keep_vector(struct list *it, octet *vector)
{
    if (UNLIKELY(it->number == it->most)) {
        it->most = it->most ? 2 * it->most : 16;
        it->vectors = memory(it->vectors, it->most * sizeof *it->vectors);
    }
    it->vectors[it->number++] = vector;
}

/* A TM packet begins at this octet of the joined ones, behind the last data field that has a pointer. */
NEVER void begin_field(struct list *it, size_t start)
{
    size_t field = start / field_room;
    if (field >= it->room_for_fields) {
        it->room_for_fields = 2 * field + 64;
        it->pointers = memory(it->pointers, it->room_for_fields * sizeof *it->pointers);
    }
    while (it->fields < field) it->pointers[it->fields++] = 2047;
    it->pointers[it->fields++] = (uint16_t)(start % field_room);
    it->border = it->fields * field_room;
}

#define BEGIN_PACKET(it, start) do { if ((start) >= (it)->border) begin_field(it, start); } while (0)

/* The line of a packet, up to its digits. */
ALWAYS octet *put_packet(enum kind kind, unsigned map, const octet *header, unsigned octets)
{
    octet *at = put_octet(TEXT(next_place(), "vc "), here.vc);
    if (kind == TC) at = put_octet(TEXT(at, " map "), map);
    at = put_number(TEXT(at, " apid "), two_at(header) & 2047);
    at = PADDED(at, packet_texts[(header[0] >> 3 & 3) << 2 | header[2] >> 6], 48, OF_FLAGS);
    at = put_number(TEXT(put_number(at, two_at(header + 2) & 16383), " octets "), octets);
    return TEXT(at, " ");
}

NEVER void print_packet(enum kind kind, unsigned map, const octet *packet, unsigned octets)
{
    end_line(put_hex(put_packet(kind, map, packet, octets), packet, octets));
}

/* Takes the packets at the front of octets that lie elsewhere than the list, or behind it. Returns how many octets they
 * have. */
ALWAYS unsigned take_packets(enum verb verb, enum kind kind, struct list *it, unsigned map, const octet *from,
                             unsigned octets)
{
    unsigned at = 0, joint = 0;                         /* those that are to be joined begin here */
    while (octets - at >= 7 && LIKELY(!is_foreign(from[at]))) {
        const octet *packet = from + at;
        unsigned length = length_of(packet);
        if (UNLIKELY(length > octets - at)) break;
        if (UNLIKELY(is_idle(packet))) {
            totals.idle++;
            if (verb == JOIN && at > joint) join(it, from + joint, at - joint);
            joint = at + length;
        } else {
            totals.packets++;
            if (verb == PACKETS) print_packet(kind, map, packet, length);
            if (verb == VECTORS) keep_vector(it, memcpy(memory(NULL, length), packet, length));
            if (verb == JOIN && kind == TM) BEGIN_PACKET(it, it->size + at - joint);
        }
        at += length;
    }
    if (verb == JOIN && at > joint) join(it, from + joint, at - joint);
    return at;
}

/* ---- TM ---- */

static struct channel {
    bool has_come;
    octet next;                                         /* the count that is expected */
    unsigned octets;                                    /* of the incomplete packet, 0 where there is none */
    unsigned length;                                    /* that it states, 0 where its header isn't whole */
    octet header[6];
    octet *vector;                                      /* of the incomplete packet, where each has its own */
    struct list list;
} channels[8];

ALWAYS void drop(enum verb verb, struct channel *it)
{
    TELL("dropped vc %u octets %u", here.vc, it->octets);
    if (verb == VECTORS) free(it->vector), it->vector = NULL;
    it->octets = 0, it->list.more = 0;
}

/* Adds octets of the field to the incomplete packet. Its vector is taken once its header is known. */
ALWAYS void go_on(enum verb verb, struct channel *it, const octet *field, unsigned octets)
{
    if (verb == VECTORS && it->length && !is_idle(it->header)) {
        if (!it->vector) memcpy(it->vector = memory(NULL, it->length), it->header, 6);
        memcpy(it->vector + it->octets, field, octets);
    }
    if (verb == PACKETS || verb == JOIN) add(&it->list, field, octets);
    it->octets += octets;
}

/* The incomplete packet becomes whole with these octets. */
ALWAYS void end_incomplete(enum verb verb, struct channel *it, const octet *field, unsigned octets)
{
    if (UNLIKELY(is_idle(it->header))) {
        totals.idle++;
    } else {
        totals.packets++;
        if (verb == PACKETS) {
            octet *at = put_packet(TM, 0, it->header, it->length);
            end_line(put_hex(put_hex(at, it->list.octets, it->octets), field, octets));
        }
        if (verb == JOIN) {
            BEGIN_PACKET(&it->list, it->list.size);
            join(&it->list, field, octets);
        }
        if (verb == VECTORS) go_on(verb, it, field, octets), keep_vector(&it->list, it->vector), it->vector = NULL;
    }
    it->octets = 0, it->list.more = 0;
}

/* The packets that start in these octets. */
ALWAYS void start(enum verb verb, struct channel *it, const octet *from, unsigned octets)
{
    unsigned whole = take_packets(verb, TM, &it->list, 0, from, octets);
    from += whole, octets -= whole;
    if (UNLIKELY(!octets)) return;
    if (UNLIKELY(is_foreign(*from))) {
        TELL("foreign vc %u", here.vc);
        return;
    }
    it->length = LIKELY(octets >= 6) ? length_of(from) : 0;
    memcpy(it->header, from, 6);
    go_on(verb, it, from, octets);
}

/* A packet frame: its field, and the pointer or 2047. */
ALWAYS void packet_frame(enum verb verb, struct channel *it, const octet *field, unsigned octets, unsigned pointer)
{
    if (it->octets) {
        if (UNLIKELY(!it->length)) {
            for (unsigned i = it->octets; i < 6 && i - it->octets < octets; i++) it->header[i] = field[i - it->octets];
            if (it->octets + octets >= 6) it->length = length_of(it->header);
        }
        bool ends = it->length && it->length - it->octets <= octets;
        unsigned end = ends ? it->length - it->octets : octets;
        if (UNLIKELY(pointer != (end == octets ? 2047 : end))) drop(verb, it);
        else if (ends) end_incomplete(verb, it, field, end);
        else go_on(verb, it, field, octets);
    }
    if (pointer != 2047) start(verb, it, field + pointer, octets - pointer);
}

/* The class of a frame that isn't skipped: 2046 idle, 2047 no packet starts, 2048 opaque, else the pointer. */
ALWAYS unsigned class_of(const octet *frame, unsigned octets)
{
    unsigned word = two_at(frame + 4), pointer = word & 2047;
    return LIKELY(word < 0x4000 && (pointer < octets || pointer >= 2046)) ? pointer : 2048;
}

ALWAYS void tm_show(const octet *frame, unsigned pointer, const octet *word)
{
    octet *at = LINE(here.offset, " frame vc ");
    *at++ = (octet)('0' + here.vc);
    at = put_octet(TEXT(at, " mc "), frame[2]);
    at = put_octet(TEXT(at, " vcc "), frame[3]);
    if (LIKELY(pointer < 2046)) at = put_number(TEXT(at, " first "), pointer);
    else if (pointer == 2046) at = TEXT(at, " idle");
    else if (pointer == 2047) at = TEXT(at, " none");
    else at = TEXT(at, " opaque");
    if (frame[1] & 1) {
        at = *word & 0x80 ? TEXT(at, " ocf ") : TEXT(at, " clcw ");
        for (int i = 0; i < 4; i++) at = put(at, hex[word[i]], 2);
        if (!(*word & 0x80)) {
            at = put_octet(TEXT(at, " vc "), word[1] >> 2);
            at = put_octet(PADDED(at, control_texts[word[2] >> 1 & 31], 48, OF_CONTROL), word[3]);
        }
    }
    end_line(at);
}

ALWAYS void tm_frame(enum verb verb, const octet *frame, bool fecf)
{
    const char *reason = NULL;
    if (fecf && UNLIKELY(!is_right(frame, tm_length))) reason = "fecf";
    else if (UNLIKELY(two_at(frame) >> 4 != spacecraft)) reason = frame[0] >> 6 ? "version" : "spacecraft";
    if (UNLIKELY(reason != NULL)) {
        totals.skipped++;
        if (verb <= CHECK) say(here.offset, "skip %s", reason);
        return;
    }
    unsigned end = tm_length - 2 * fecf, octets = end - 6 - 4 * (frame[1] & 1), pointer = class_of(frame, octets);
    struct channel *it = &channels[here.vc = frame[1] >> 1 & 7];
    octet count = frame[3];
    if (verb == SHOW) {
        tm_show(frame, pointer, frame + end - 4);
        return;
    }
    if (UNLIKELY(count != it->next || !it->has_come)) {
        if (it->has_come) TELL("gap vc %u expected %u found %u", here.vc, it->next, count);
        if (it->octets) drop(verb, it);
        it->has_come = true;
    }
    it->next = count + 1;
    if (LIKELY(pointer < 2046 || pointer == 2047)) {
        packet_frame(verb, it, frame + 6, octets, pointer);
    } else if (pointer == 2048) {
        if (it->octets) drop(verb, it);
        TELL("opaque vc %u", here.vc);
    }
}

ALWAYS void tm_frames(enum verb verb, bool fecf)
{
    unsigned length = tm_length;
    size_t rest;
    const octet *at = in;
    do {
        const octet *end = in + held;
        for (; (size_t)(end - at) >= length; at += length, here.offset += length, totals.frames++)
            tm_frame(verb, at, fecf);
        rest = (size_t)(end - at);
    } while (read_more(at, rest) && (at = in));
    if (rest && verb <= CHECK) say(here.offset, "rest %zu", rest);
    here.offset += rest;
    for (unsigned vc = 0; vc < 8; vc++)
        if (channels[vc].octets) TELL("open vc %u octets %u", vc, channels[vc].octets);
}

/* What the next frame of the TM normal form has; octets of its data field that are filled. */
static struct { unsigned vc, filled; octet mc, vcc; } form;

ALWAYS void put_header(octet *frame, unsigned pointer)
{
    put_two(frame, spacecraft << 4 | form.vc << 1);
    frame[2] = form.mc++, frame[3] = form.vcc++;
    put_two(frame + 4, 0x1800 | pointer);
}

/* The idle packet that fills up a data field with room for this many octets more: its length, which may be greater. */
static octet idle[LONGEST_FRAME + 8] = {0x07, 0xFF, 0xC0};

static unsigned make_idle(unsigned left)
{
    unsigned octets = left < 7 ? left + field_room : left;
    put_two(idle + 4, octets - 7);
    return octets;
}

/* Writes joined packets, without a copy: header, data field, error control field. */
static void write_joined(struct list *it)
{
    enum { FRAMES = 256 };
    static octet around[FRAMES][8];
    static struct iovec parts[3 * FRAMES];
    int number = 0, frames = 0;
    it->more = 0;
    if (it->size % field_room) {
        BEGIN_PACKET(it, it->size);
        join(it, idle, make_idle(field_room - (unsigned)(it->size % field_room)));
    }
    for (size_t field = 0, fields = it->size / field_room; field < fields; field++) {
        octet *from = it->octets + field * field_room, *header = around[frames++];
        put_header(header, field < it->fields ? it->pointers[field] : 2047);
        parts[number++] = (struct iovec){header, 6};
        parts[number++] = (struct iovec){from, field_room};
        if (tm_fecf) {
            put_two(header + 6, crc(crc(0xFFFF, header, 6), from, field_room));
            parts[number++] = (struct iovec){header + 6, 2};
        }
        if (frames < FRAMES && field + 1 < fields) continue;
        write_parts(parts, number);
        number = frames = 0;
    }
}

/* Adds a packet to the frame that is begun. */
static void add_packet(const octet *packet, unsigned octets)
{
    for (bool is_start = true; octets; is_start = false) {
        octet *frame = form.filled ? end_of_output : next_place();
        if (!form.filled) put_header(frame, 2047);
        if (is_start && two_at(frame + 4) == 0x1FFF) put_two(frame + 4, 0x1800 | form.filled);
        unsigned part = field_room - form.filled < octets ? field_room - form.filled : octets;
        memcpy(frame + 6 + form.filled, packet, part);
        packet += part, octets -= part, form.filled += part;
        if (form.filled < field_room) return;
        if (tm_fecf) put_two(frame + tm_length - 2, crc(0xFFFF, frame, tm_length - 2));
        end_of_output = frame + tm_length, form.filled = 0;
    }
}

static void write_tm_form(enum verb verb)
{
    for (form.vc = 0; form.vc < 8; form.vc++) {
        struct list *it = &channels[form.vc].list;
        form.vcc = 0;
        if (verb == JOIN) write_joined(it);
        for (size_t i = 0; i < it->number; i++) add_packet(it->vectors[i], length_of(it->vectors[i]));
        if (form.filled) add_packet(idle, make_idle(field_room - form.filled));
    }
}

/* ---- TC ---- */

enum { LOCKOUT = 0x20, RETRANSMIT = 0x08, COUNTER = 0x06, ONE = 0x02 };     /* in the third octet of a CLCW */

static struct farm {
    octet vr, flags;
    bool has_come;                                      /* a frame that isn't skipped */
} farms[64];

static struct series {
    bool is_open;
    unsigned octets;                                    /* of the series so far */
    /* Of `check`, which keeps no octets: packets and idle ones so far, the octet after them, what the next one has. */
    unsigned packets, idle, end, length;
    octet header[6];
    bool is_foreign;
    struct list list;
} all_series[64 * 64];

enum content { AD, BD, UNLOCK, SET_VR };
enum verdict { ACCEPT, EARLY, LATE, OUTSIDE, REFUSED, COMMAND };
static const char VERDICTS[][20] = {" accept clcw 01", " early clcw 01", " late clcw 01", " outside clcw 01",
                                    " refused clcw 01", " command clcw 01"};
static const octet VERDICT_WIDTHS[] = {15, 14, 13, 16, 16, 16};

ALWAYS enum verdict farm_step(struct farm *it, enum content content, unsigned number)
{
    if (LIKELY(content == AD)) {
        if (UNLIKELY(it->flags & LOCKOUT)) return REFUSED;
        unsigned d = (number - it->vr) & 255;
        if (LIKELY(d == 0)) {
            it->vr++, it->flags &= (octet)~RETRANSMIT;
            return ACCEPT;
        }
        if (d >= 256 - HALF_WINDOW) return LATE;
        it->flags |= d < HALF_WINDOW ? RETRANSMIT : LOCKOUT;
        return d < HALF_WINDOW ? EARLY : OUTSIDE;
    }
    it->flags = (octet)((it->flags & ~COUNTER) | ((it->flags + ONE) & COUNTER));
    if (content == BD) return ACCEPT;
    if (content == UNLOCK) it->flags &= COUNTER;
    else if (!(it->flags & LOCKOUT)) it->flags &= (octet)~RETRANSMIT, it->vr = (octet)number;
    return COMMAND;
}

/* What a frame that isn't skipped holds. */
struct view {
    enum content content;
    unsigned number;                                    /* N(S), or the value of Set V(R) */
    const octet *unit;
    unsigned octets;
};

/* Reads a frame, or gives the reason to skip it. */
ALWAYS const char *tc_read(const octet *frame, unsigned length, bool fecf, struct view *view)
{
    if (fecf && UNLIKELY(!is_right(frame, length))) return "fecf";
    view->unit = frame + 5, view->octets = length - 5 - 2 * fecf, view->number = frame[4];
    /* Of type AD: but for the spare bits, the spacecraft is all that there is. */
    unsigned word = two_at(frame), type = word >> 12 & 3;
    bool is_ad = (word & 0xF3FF) == spacecraft;
    if (UNLIKELY(!is_ad && word >> 14)) return "version";
    if (UNLIKELY(!is_ad && (word & 1023) != spacecraft)) return "spacecraft";
    if (UNLIKELY(length > tc_length)) return "long";
    if (UNLIKELY(!is_ad && type == 1)) return "kind";
    if (UNLIKELY(!view->octets)) return "empty";
    if (LIKELY(is_ad)) view->content = AD;
    else if (type == 2) view->content = BD;
    else if (view->octets == 1 && view->unit[0] == 0) view->content = UNLOCK;
    else if (view->octets == 3 && two_at(view->unit) == 0x8200) view->content = SET_VR, view->number = view->unit[2];
    else return "command";
    return NULL;
}

ALWAYS void tc_show(const struct view *view, enum verdict verdict, const struct farm *farm)
{
    octet *at = put_octet(LINE(here.offset, " frame vc "), here.vc);
    if (LIKELY(view->content <= BD)) {
        at = view->content == AD ? put_octet(TEXT(at, " ad "), view->number) : TEXT(at, " bd");
        unsigned header = view->unit[0];
        at = put_number(PADDED(at, segment_texts[header], 32, segment_widths[header]), view->octets - 1);
    } else if (view->content == UNLOCK) {
        at = TEXT(at, " unlock");
    } else {
        at = put_octet(TEXT(at, " setvr "), view->number);
    }
    at = PADDED(at, VERDICTS[verdict], 16, VERDICT_WIDTHS[verdict]);
    end_line(put(put(put(at, hex[here.vc << 2], 2), hex[farm->flags], 2), hex[farm->vr], 2));
}

/* Takes the packets of a whole service data unit. */
ALWAYS void take_unit(enum verb verb, struct list *it, unsigned map, const octet *unit, unsigned octets)
{
    unsigned whole = take_packets(verb, TC, it, map, unit, octets);
    if (UNLIKELY(whole < octets)) TELL("tail vc %u map %u octets %u", here.vc, map, octets - whole);
}

/* `check` of a segment: goes over the packets in it, and keeps no octet but a header's. */
static void look_at(struct series *it, const octet *from, unsigned octets)
{
    unsigned begin = it->octets, end = begin + octets;
    while (!it->is_foreign && it->end < end) {
        if (!it->length) {
            unsigned known = it->end < begin ? begin - it->end : 0;
            while (known < 6 && it->end + known < end) it->header[known] = from[it->end + known - begin], known++;
            it->is_foreign = is_foreign(it->header[0]);
            if (known < 6 || it->is_foreign) break;
            it->length = length_of(it->header);
        }
        if (it->end + it->length > end) break;
        if (is_idle(it->header)) it->idle++;
        else it->packets++;
        it->end += it->length, it->length = 0;
    }
}

ALWAYS void drop_series(enum verb verb, struct series *it, unsigned map)
{
    TELL("dropped vc %u map %u octets %u", here.vc, map, it->octets);
    it->is_open = false, it->list.more = 0;
}

/* A segment of a series of more than one. */
NEVER void take_segment(enum verb verb, struct series *it, unsigned flags, unsigned map, const octet *from,
                        unsigned octets)
{
    if (flags == 1) {
        if (it->is_open) drop_series(verb, it, map);
        it->is_open = true, it->is_foreign = false;
        it->octets = it->packets = it->idle = it->end = it->length = 0;
    } else if (!it->is_open) {
        TELL("stray vc %u map %u", here.vc, map);
        return;
    } else if (it->octets + octets > LONGEST_PACKET) {
        TELL("long vc %u map %u", here.vc, map);
        it->is_open = false, it->list.more = 0;
        return;
    }
    if (verb == CHECK) look_at(it, from, octets);
    else add(&it->list, from, octets);
    it->octets += octets;
    if (flags != 2) return;
    it->is_open = false, it->list.more = 0;
    totals.packets += it->packets, totals.idle += it->idle;
    if (verb != CHECK) take_unit(verb, &it->list, map, it->list.octets + it->list.size, it->octets);
    else if (it->end < it->octets) TELL("tail vc %u map %u octets %u", here.vc, map, it->octets - it->end);
}

ALWAYS void tc_frame(enum verb verb, const octet *frame, unsigned length, bool fecf)
{
    struct view view;
    const char *reason = tc_read(frame, length, fecf, &view);
    if (UNLIKELY(reason != NULL)) {
        totals.skipped++;
        if (verb <= CHECK) say(here.offset, "skip %s", reason);
        return;
    }
    struct farm *farm = &farms[here.vc = frame[2] >> 2];
    farm->has_come = true;
    enum verdict verdict = farm_step(farm, view.content, view.number);
    if (verb == SHOW) {
        tc_show(&view, verdict, farm);
        return;
    }
    if (UNLIKELY(verdict != ACCEPT)) {
        int width = VERDICT_WIDTHS[verdict] - OF_CLCW - 1;
        if (verdict != COMMAND) TELL("%.*s vc %u ad %u", width, VERDICTS[verdict] + 1, here.vc, view.number);
        return;
    }
    unsigned flags = view.unit[0] >> 6, map = view.unit[0] & 63;
    struct series *it = &all_series[64 * here.vc + map];
    if (UNLIKELY(flags != 3)) {
        take_segment(verb, it, flags, map, view.unit + 1, view.octets - 1);
        return;
    }
    if (UNLIKELY(it->is_open)) drop_series(verb, it, map);
    take_unit(verb, &it->list, map, view.unit + 1, view.octets - 1);
}

ALWAYS void tc_frames(enum verb verb, bool fecf)
{
    unsigned least = fecf ? 7 : 5;
    size_t rest;
    const octet *at = in;
    bool is_stuck = false;
    do {
        const octet *end = in + held;
        while (LIKELY(end - at >= 4)) {
            unsigned length = (two_at(at + 2) & 1023) + 1;
            is_stuck = length < least;
            if (UNLIKELY(is_stuck || (size_t)(end - at) < length)) break;
            tc_frame(verb, at, length, fecf);
            at += length, here.offset += length, totals.frames++;
        }
        rest = (size_t)(end - at);
    } while (!is_stuck && read_more(at, rest) && (at = in));
    while (is_stuck && read_more(in, 0)) rest += held;
    if (rest && verb <= CHECK) say(here.offset, "rest %zu", rest);
    here.offset += rest;
    for (unsigned place = 0; verb == CHECK && place < 64 * 64; place++) {
        struct series *it = &all_series[place];
        if (!farms[place >> 6].has_come) place |= 63;
        else if (it->is_open) TELL("open vc %u map %u octets %u", place >> 6, place & 63, it->octets);
    }
}

/* Writes the frames of a packet. Returns N(S) after them. Joined packets have SLACK behind. */
ALWAYS octet write_frames(bool is_joined, unsigned vc, unsigned map, octet ns, const octet *packet, unsigned octets)
{
    unsigned room = tc_length - 6 - 2 * tc_fecf;
    for (unsigned at = 0, part; at < octets; at += part) {
        part = octets - at < room ? octets - at : room;
        unsigned covered = 6 + part, length = covered + 2 * tc_fecf, is_last = at + part == octets;
        octet *frame = next_place();
        put_two(frame, spacecraft);
        put_two(frame + 2, vc << 10 | (length - 1));
        frame[4] = ns++, frame[5] = (octet)((at == 0 ? 0x40u : 0) | is_last << 7 | map);
        if (is_joined && part <= 64) memcpy(frame + 6, packet + at, 64);
        else memcpy(frame + 6, packet + at, part);
        if (tc_fecf) put_two(frame + covered, crc(0xFFFF, frame, covered));
        end_of_output = frame + length;
    }
    return ns;
}

static void write_tc_form(void)
{
    octet ns = 0;
    for (unsigned place = 0, octets; place < 64 * 64; place++) {
        unsigned vc = place >> 6, map = place & 63;
        struct list *it = &all_series[place].list;
        if (map == 0) ns = 0;
        if (!farms[vc].has_come) place |= 63;
        for (size_t at = 0; at < it->size; at += octets)
            ns = write_frames(true, vc, map, ns, it->octets + at, octets = length_of(it->octets + at));
        for (size_t i = 0; i < it->number; i++)
            ns = write_frames(false, vc, map, ns, it->vectors[i], length_of(it->vectors[i]));
    }
}

/* ---- The command line ---- */

__attribute__((hot)) NEVER void run(enum verb verb, enum kind kind)
{
#define EACH(verb) \
    (kind == TM ? tm_fecf ? tm_frames(verb, true) : tm_frames(verb, false) \
                : tc_fecf ? tc_frames(verb, true) : tc_frames(verb, false))
    switch (verb) {
    case SHOW: EACH(SHOW); break;
    case CHECK: EACH(CHECK); break;
    case PACKETS: EACH(PACKETS); break;
    case JOIN: EACH(JOIN); break;
    case VECTORS: EACH(VECTORS); break;
    }
    if (verb >= JOIN && kind == TM) write_tm_form(verb);
    else if (verb >= JOIN) write_tc_form();
    write_out();
    if (verb == CHECK)
        end_of_output += sprintf((char *)out, "frames %llu skipped %llu packets %llu idle %llu anomalies %llu\n",
                                 totals.frames, totals.skipped, totals.packets, totals.idle, totals.anomalies);
    write_out();
}

static unsigned number(const char *text, unsigned long least, unsigned long most)
{
    unsigned long it = text ? strtoul(text, NULL, 10) : 0;
    if (!text || it < least || it > most) stop(2, "wrong number");
    return (unsigned)it;
}

int main(int count, char **words)
{
    static const char *const verbs[] = {"show", "check", "packets", "normalise"};
    int verb = 0, kind = count > 2 && !strcmp(words[2], "tc");
    while (verb < 4 && count > 2 && strcmp(words[1], verbs[verb])) verb++;
    if (count < 3 || verb == 4 || (!kind && strcmp(words[2], "tm"))) stop(2, "wrong verb or kind");
    for (int i = 3; i < count; i++) {
        if (!strcmp(words[i], "--tm-fecf")) tm_fecf = true;
        else if (!strcmp(words[i], "--tc-fecf")) tc_fecf = true;
        else if (!strcmp(words[i], "--vectors") && verb >= JOIN) verb = VECTORS;
        else if (!strcmp(words[i], "--scid")) spacecraft = number(words[++i], 0, 1023);
        else if (!strcmp(words[i], "--tm-length")) tm_length = number(words[++i], 32, 2048);
        else if (!strcmp(words[i], "--tc-length")) tc_length = number(words[++i], 16, 1024);
        else stop(2, "wrong option");
    }
    field_room = tm_length - 6 - 2 * tm_fecf;
    make_texts();
    run((enum verb)verb, (enum kind)kind);
    return verb == CHECK && totals.anomalies ? 1 : 0;
}
