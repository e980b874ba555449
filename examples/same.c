/*
 * Whether two recordings of TM frames with a frame error control field deliver the same packets.
 *
 *     cc -o same examples/same.c -lsllink && ./same SCID TM_LENGTH ONE OTHER
 */
#include <sllink.h>
#include <stdio.h>
#include <stdlib.h>

/* The octets of a file, or null. */
static uint8_t *octets_of(const char *path, size_t *length) {
    uint8_t *octets = NULL;
    FILE *file = fopen(path, "rb");
    if (file != NULL && fseek(file, 0, SEEK_END) == 0 && ftell(file) >= 0) {
        *length = (size_t)ftell(file);
        rewind(file);
        octets = malloc(*length + 1); /* never null for want of octets */
        if (octets != NULL && fread(octets, 1, *length, file) != *length) {
            free(octets);
            octets = NULL;
        }
    }
    if (file != NULL)
        fclose(file);
    return octets;
}

int main(int argc, char **argv) {
    if (argc != 5)
        return fprintf(stderr, "same SCID TM_LENGTH ONE OTHER\n"), 2;
    sllink_managed managed = {.spacecraft = (uint16_t)atoi(argv[1]),
                              .tm_length = (uint16_t)atoi(argv[2]),
                              .tm_fecf = true,
                              .tc_length = 1024,
                              .window = 10,
                              .limit = 1073741824};
    size_t one_length = 0, other_length = 0;
    uint8_t *one = octets_of(argv[3], &one_length), *other = octets_of(argv[4], &other_length);
    if (one == NULL || other == NULL)
        return fprintf(stderr, "same: a recording can't be read\n"), 2;
    bool same = false;
    sllink_answer answer =
        sllink_same_packets_tm(&managed, one, one_length, other, other_length, &same);
    free(one);
    free(other);
    if (answer != SLLINK_DONE)
        return fprintf(stderr, "same: answer %d, which sllink.h explains\n", (int)answer), 2;
    puts(same ? "the same packets" : "other packets");
    return !same;
}
