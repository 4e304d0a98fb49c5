/*
 * Times many small calls: bench FILE SIZE ROUNDS [CDDL RULE]
 *
 * FILE has items of SIZE bytes each, one after the other. Each round converts all of them to diagnostic notation, once
 * into a buffer and once with no room, which does all but copy the output. It prints the least nanoseconds of a
 * conversion of both kinds. With CDDL, a file of rules, and RULE, which all items fit, each round checks all of them
 * instead, and it prints the least nanoseconds of a check.
 */
#include <stdio.h>
#include <stdlib.h>
#include <time.h>

#include "cbor_diag.h"

static double now(void)
{
    struct timespec time;
    clock_gettime(CLOCK_MONOTONIC, &time);
    return 1e9 * (double)time.tv_sec + (double)time.tv_nsec;
}

/* The nanoseconds of a conversion. Ends the program if one fails. */
static double convert_all(const unsigned char *items, size_t size, size_t count, unsigned char *output, size_t room)
{
    double begin = now();
    for (size_t i = 0; i < count; i++) {
        if (cbor_diag_convert(CBOR_DIAG_FORM_BYTES, CBOR_DIAG_FORM_DIAG, items + i * size, size, output, room) < 0) {
            fprintf(stderr, "item %zu is not converted\n", i);
            exit(1);
        }
    }
    return (now() - begin) / (double)count;
}

/* The schema of a rule in a file. Ends the program if there is none. */
static struct cbor_diag_schema *schema_of(const char *name, const char *rule)
{
    static char cddl[65536];
    char message[256] = "";
    FILE *file = fopen(name, "rb");
    size_t length = file ? fread(cddl, 1, sizeof cddl, file) : 0;
    struct cbor_diag_schema *schema = cbor_diag_schema_new(cddl, length, rule, message, sizeof message);
    if (!file || !schema) {
        fprintf(stderr, "%s: %s\n", name, message);
        exit(1);
    }
    fclose(file);
    return schema;
}

/* The nanoseconds of a check. Ends the program if an item does not fit. */
static double check_all(const struct cbor_diag_schema *schema, const unsigned char *items, size_t size, size_t count)
{
    double begin = now();
    for (size_t i = 0; i < count; i++) {
        if (cbor_diag_schema_check(schema, items + i * size, size, NULL, NULL, 0) != 0) {
            fprintf(stderr, "item %zu does not fit\n", i);
            exit(1);
        }
    }
    return (now() - begin) / (double)count;
}

int main(int argc, char **argv)
{
    if (argc != 4 && argc != 6) {
        fprintf(stderr, "usage: bench FILE SIZE ROUNDS [CDDL RULE]\n");
        return 2;
    }
    size_t size = strtoul(argv[2], NULL, 10);
    long rounds = strtol(argv[3], NULL, 10);
    FILE *file = fopen(argv[1], "rb");
    if (!file || fseek(file, 0, SEEK_END) != 0) {
        perror(argv[1]);
        return 1;
    }
    size_t count = (size_t)ftell(file) / size;
    unsigned char *items = malloc(count * size);
    unsigned char output[4096];
    rewind(file);
    if (!items || fread(items, size, count, file) != count) {
        perror(argv[1]);
        return 1;
    }
    fclose(file);
    if (argc == 6) {
        struct cbor_diag_schema *schema = schema_of(argv[4], argv[5]);
        double least = 1e18;
        for (long round = 0; round < rounds; round++) {
            double time = check_all(schema, items, size, count);
            least = time < least ? time : least;
        }
        printf("%.1f\n", least);
        cbor_diag_schema_free(schema);
        free(items);
        return 0;
    }
    double with_copy = 1e18, without = 1e18;
    for (long round = 0; round < rounds; round++) {
        double time = convert_all(items, size, count, output, sizeof output);
        with_copy = time < with_copy ? time : with_copy;
        time = convert_all(items, size, count, output, 0);
        without = time < without ? time : without;
    }
    printf("%.1f %.1f\n", with_copy, without);
    free(items);
    return 0;
}
