/* Writes a recording to measure with: the same octets for the same words.
 *
 *     cc -O3 -o generate bench/generate.c
 *     generate tm|tmfecf|tc|tcfecf|tcsmall|tcsmallfecf OCTETS SEED [LENGTH] > RECORDING
 *
 * The recording has this many octets or up to one frame more. Its spacecraft is 1. LENGTH is another length of TM
 * frames, 32 to 2048, or another greatest length of TC frames, 16 to 1024.
 *
 * TM: frames of 1115 octets with an operational control field, a CLCW, on the virtual channels 0, 1 and 2, six, three
 * and one in ten. One frame in eleven is idle. Packets lie end to end over the packet frames of their channel. One frame
 * in a thousand is lost.
 *
 * TC: frames of at most 1024 octets, of `tcsmall` 64, on the virtual channels 0, 1 and 2, six, three and one in ten, and
 * on the MAPs 0 to 3. Of 1,000 things sent 685 are one packet or more with no segmentation, one in ten of these of type
 * BD; 300 are a series of segments with more than one has room for, up to four times that; ten are Unlock, and five Set
 * V(R) to V(R). One frame of type AD in a thousand is lost: the next one of its channel comes early, and both are sent
 * again.
 *
 * Packets have 7 to 99 octets, 100 to 699 or 700 to 2000, four, four and two in ten; where there is less room, 7 octets
 * up to that. One in fifteen is idle. With `fecf` frames have an error control field, and one frame in three thousand
 * has an octet changed; a frame of type AD is sent again then too.
 */
#include <stdbool.h>
#include <stdint.h>
#include <stdio.h>
#include <stdlib.h>
#include <string.h>

typedef uint8_t octet;

enum { LONGEST = 2048, CONTROL = 4, SPACECRAFT = 1 };

static uint64_t state;

/* Splitmix64. */
static uint64_t next(void)
{
    uint64_t it = state += 0x9E3779B97F4A7C15;
    it = (it ^ it >> 30) * 0xBF58476D1CE4E5B9;
    it = (it ^ it >> 27) * 0x94D049BB133111EB;
    return it ^ it >> 31;
}

/* A number from 0 on, below `end`. */
static unsigned below(unsigned end) { return (unsigned)((next() >> 32) * end >> 32); }

static unsigned from_to(unsigned least, unsigned most) { return least + below(most - least + 1); }

/* The virtual channel of a frame: 0, 1 or 2, six, three and one in ten. */
static unsigned lot(void)
{
    unsigned it = below(10);
    return it < 6 ? 0 : it < 9 ? 1 : 2;
}

static bool fecf;
static uint64_t written;

/* Whether the next frame is damaged, which its error control field has to show. */
static bool damages(void) { return fecf && !below(3000); }

static uint16_t words[256];

static uint16_t error_control(const octet *from, size_t octets)
{
    uint16_t it = 0xFFFF;
    for (size_t i = 0; i < octets; i++) it = (uint16_t)(it << 8 ^ words[it >> 8 ^ from[i]]);
    return it;
}

static void make_words(void)
{
    for (unsigned n = 0; n < 256; n++) {
        uint16_t it = (uint16_t)(n << 8);
        for (int bit = 0; bit < 8; bit++) it = (uint16_t)(it << 1 ^ (it & 0x8000 ? 0x1021 : 0));
        words[n] = it;
    }
}

/* Writes a frame, whose last two octets are its error control field where it has one. */
static void write_frame(octet *frame, size_t length, bool is_damaged)
{
    if (fecf) {
        uint16_t field = error_control(frame, length - 2);
        frame[length - 2] = (octet)(field >> 8), frame[length - 1] = (octet)field;
    }
    /* Not in its header, so that a TC frame keeps its length. */
    if (is_damaged) frame[from_to(5, (unsigned)length - 1)] ^= (octet)from_to(1, 255);
    written += length;
    if (fwrite(frame, 1, length, stdout) != length) exit(1);
}

static void fill(octet *at, size_t octets)
{
    for (; octets >= 8; at += 8, octets -= 8) {
        uint64_t it = next();
        memcpy(at, &it, 8);
    }
    uint64_t it = next();
    memcpy(at, &it, octets);
}

static unsigned counts[16];

/* Makes a packet of at most so many octets, and gives its length. */
static unsigned make_packet(octet *at, bool is_command, unsigned most)
{
    unsigned kind = below(10);
    unsigned octets = kind < 4 ? from_to(7, 99) : kind < 8 ? from_to(100, 699) : from_to(700, 2000);
    if (octets > most) octets = from_to(7, most);
    unsigned source = below(15), apid = source ? 100 + source : 2047, count = counts[source]++ & 16383;
    at[0] = (octet)(is_command << 4 | apid >> 8), at[1] = (octet)apid;
    at[2] = (octet)(0xC0 | count >> 8), at[3] = (octet)count;
    at[4] = (octet)((octets - 7) >> 8), at[5] = (octet)(octets - 7);
    fill(at + 6, octets - 6);
    return octets;
}

/* TM */

static struct {
    octet packet[2000];
    unsigned octets, at;                                /* of the packet; where its next octet stands */
    octet count;
} channels[3];

static void tm(uint64_t octets, unsigned length)
{
    octet frame[LONGEST], master = 0;
    unsigned room = length - 6 - CONTROL - 2 * fecf;
    while (written < octets) {
        unsigned vc = lot(), pointer = 2047, at = 0;
        bool is_idle = !below(11);
        while (!is_idle && at < room) {
            if (channels[vc].at == channels[vc].octets) {
                channels[vc].octets = make_packet(channels[vc].packet, false, 2000), channels[vc].at = 0;
                if (pointer == 2047) pointer = at;
            }
            unsigned left = channels[vc].octets - channels[vc].at, part = left < room - at ? left : room - at;
            memcpy(frame + 6 + at, channels[vc].packet + channels[vc].at, part);
            at += part, channels[vc].at += part;
        }
        if (is_idle) fill(frame + 6, room), pointer = 2046;
        frame[0] = SPACECRAFT >> 4, frame[1] = (octet)(SPACECRAFT << 4 | vc << 1 | 1);
        frame[2] = master++, frame[3] = channels[vc].count++;
        frame[4] = (octet)(0x18 | pointer >> 8), frame[5] = (octet)pointer;
        octet *word = frame + 6 + room;
        word[0] = 1, word[1] = (octet)(lot() << 2), word[2] = (octet)(below(4) << 1), word[3] = master;
        if (below(1000)) write_frame(frame, length, damages());
    }
}

/* TC */

static struct {
    octet frame[1024];
    size_t length;
    bool is_lost;                                       /* the frame of type AD before the next one, also by damage */
    octet ns;
} links[3];

/* Writes a frame that has its data field. */
static void finish(octet *frame, unsigned vc, octet ns, unsigned flags, size_t length, bool is_damaged)
{
    frame[0] = (octet)(flags | SPACECRAFT >> 8), frame[1] = SPACECRAFT;
    frame[2] = (octet)(vc << 2 | (length - 1) >> 8), frame[3] = (octet)(length - 1), frame[4] = ns;
    write_frame(frame, length, is_damaged);
}

static void send_command(unsigned vc)
{
    octet frame[16] = {0};
    size_t octets = 1;
    if (below(3) == 0) frame[5] = 0x82, frame[7] = (octet)(links[vc].ns - links[vc].is_lost), octets = 3;
    finish(frame, vc, 0, 0x30, 5 + octets + 2 * fecf, damages());
}

/* Sends a unit of so many octets, which lies in the frame from its sixth octet on. */
static void send_unit(octet *frame, unsigned vc, size_t octets, bool bypasses)
{
    size_t length = 5 + octets + 2 * fecf;
    if (bypasses) {
        finish(frame, vc, 0, 0x20, length, damages());
        return;
    }
    octet ns = links[vc].ns++;
    bool is_lost = !below(1000), is_damaged = damages();
    if (links[vc].is_lost) {
        octet again[1024];
        memcpy(again, frame, length);
        finish(again, vc, ns, 0, length, false);
        finish(links[vc].frame, vc, (octet)(ns - 1), 0, links[vc].length, false);
        links[vc].is_lost = is_lost = is_damaged = false;
    } else if (is_lost || is_damaged) {
        memcpy(links[vc].frame, frame, length);
        links[vc].length = length, links[vc].is_lost = true;
    }
    if (!is_lost) finish(frame, vc, ns, 0, length, is_damaged);
}

static void tc(uint64_t octets, unsigned longest)
{
    octet frame[1024], series[4 * 1024];
    unsigned room = longest - 6 - 2 * fecf;
    while (written < octets) {
        unsigned vc = lot(), map = below(4), kind = below(1000);
        if (kind < 15) {
            send_command(vc);
        } else if (kind < 700) {
            unsigned at = make_packet(frame + 6, true, room);
            while (room - at >= 7 && below(2)) at += make_packet(frame + 6 + at, true, room - at);
            frame[5] = (octet)(0xC0 | map);
            send_unit(frame, vc, 1 + at, below(10) == 0);
        } else {
            unsigned whole = 0;
            while (whole <= room) {
                unsigned left = 4 * room - whole;
                whole += make_packet(series + whole, true, left < 2000 ? left : 2000);
            }
            for (unsigned at = 0; at < whole; at += room) {
                unsigned part = whole - at < room ? whole - at : room, flags = at == 0 ? 1 : at + room >= whole ? 2 : 0;
                frame[5] = (octet)(flags << 6 | map);
                memcpy(frame + 6, series + at, part);
                send_unit(frame, vc, 1 + part, false);
            }
        }
    }
}

int main(int count, char **given)
{
    static const char *const sets[] = {"tm", "tmfecf", "tc", "tcfecf", "tcsmall", "tcsmallfecf"};
    bool is_right = count == 4 || count == 5;
    int set = 0;
    while (is_right && set < 6 && strcmp(given[1], sets[set])) set++;
    unsigned length = set < 2 ? 1115 : set < 4 ? 1024 : 64;
    if (count == 5) length = (unsigned)strtoul(given[4], NULL, 10);
    if (!is_right || set == 6 || length < (set < 2 ? 32 : 16) || length > (set < 2 ? LONGEST : 1024)) {
        fputs("usage: generate tm|tmfecf|tc|tcfecf|tcsmall|tcsmallfecf OCTETS SEED [LENGTH] > RECORDING\n", stderr);
        return 2;
    }
    uint64_t octets = strtoull(given[2], NULL, 10);
    state = strtoull(given[3], NULL, 10) * 0xD1342543DE82EF95 + (uint64_t)set;
    fecf = set & 1;
    make_words();
    if (set < 2) tm(octets, length);
    else tc(octets, length);
    return fflush(stdout) ? 1 : 0;
}
