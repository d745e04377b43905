/*
 * Reads each unit named on the command line, a file each, prints its record, a line a section, its layer page, and its rates, buffer
 * sizes and picture intervals, writes the record back, and says whether the bytes are the same. A refusal is printed by its number
 * and its sentence.
 */
#include <inttypes.h>
#include <stdio.h>
#include <string.h>

#include "vps.h"

static const char *const section_names[] = {"general", "layers", "rows", "ptls", "ols", "dpb", "timing", "extension", "trailer"};

/* room for every unit that is written, for every RBSP, for every record and for every layer page */
static uint8_t unit[VPS_MOST_UNIT_BYTES];
static uint8_t work[VPS_MOST_RBSP_BYTES];
static uint32_t record[VPS_MOST_RECORD_NUMBERS];
static uint8_t output[VPS_MOST_UNIT_BYTES];
static uint8_t page[VPS_MOST_PAGE_BYTES];

static void print_section(uint64_t length, uint32_t number) {
    uint64_t start, count;
    vps_section(record, length, number, &start, &count);
    printf("%s", section_names[number]);
    for (uint64_t i = start; i < start + count; i++) {
        printf(" %" PRIu32, record[i]);
    }
    printf("\n");
}

static void print_refusal(const char *what, uint32_t number) {
    uint8_t sentence[VPS_MOST_SENTENCE_BYTES];
    uint64_t length;
    vps_sentence(number, sentence, sizeof sentence, &length);
    printf("%s %" PRIu32 ": %.*s\n", what, number, (int)length, (const char *)sentence);
}

/* The schedules of one kind, from 0 on until one is refused. */
static void print_schedules(uint64_t length, uint32_t entry, uint32_t sublayer, uint32_t vcl) {
    uint64_t rate, size;
    for (uint32_t schedule = 0; vps_bit_rate(record, length, entry, sublayer, vcl, schedule, &rate) == VPS_SUCCESS &&
                                vps_buffer_size(record, length, entry, sublayer, vcl, schedule, &size) == VPS_SUCCESS;
         schedule++) {
        printf("  %s %" PRIu32 ": %" PRIu64 " bit/s, buffer of %" PRIu64 " bits\n", vcl == VPS_SCHEDULES_VCL ? "VCL" : "NAL",
               schedule, rate, size);
    }
}

/* The picture interval of a sublayer; what is given is 1, or 0 if there is no such sublayer. */
static int print_interval(uint64_t length, uint32_t entry, uint32_t sublayer) {
    uint32_t known;
    uint64_t microseconds;
    if (vps_picture_interval(record, length, entry, sublayer, &known, &microseconds) != VPS_SUCCESS) {
        return 0;
    }
    printf("entry %" PRIu32 ", sublayer %" PRIu32 ": ", entry, sublayer);
    if (known) {
        printf("picture interval %" PRIu64 " microseconds\n", microseconds);
    } else {
        printf("picture interval missing\n");
    }
    return 1;
}

/* The sublayers of an entry, from 0 on until one is refused; what is given is how many there are. */
static uint32_t print_entry(uint64_t length, uint32_t entry) {
    uint32_t sublayer = 0;
    while (print_interval(length, entry, sublayer)) {
        print_schedules(length, entry, sublayer, VPS_SCHEDULES_NAL);
        print_schedules(length, entry, sublayer, VPS_SCHEDULES_VCL);
        sublayer++;
    }
    return sublayer;
}

/* The entries, and what is said of the one behind the last: it is refused, and the number stays as it was. */
static void print_figures(uint64_t length) {
    uint32_t entry = 0;
    while (print_entry(length, entry) > 0) {
        entry++;
    }
    uint64_t rate = 1;
    uint32_t answer = vps_bit_rate(record, length, entry, 0, VPS_SCHEDULES_NAL, 0, &rate);
    printf("entry %" PRIu32 "%s: ", entry, rate == 1 ? "" : ", rate changed");
    print_refusal("refused", answer);
}

static void round_trip(size_t unit_length) {
    uint64_t length, bits_used, page_length, written;
    uint32_t answer = vps_parse(unit, unit_length, work, sizeof work, record, VPS_MOST_RECORD_NUMBERS, &length, &bits_used);
    if (answer != VPS_SUCCESS) {
        print_refusal("refused", answer);
        return;
    }
    printf("ok %" PRIu64 ", bits used %" PRIu64 "\n", length, bits_used);
    for (uint32_t number = VPS_SECTION_GENERAL; number <= VPS_SECTION_TRAILER; number++) {
        print_section(length, number);
    }
    answer = vps_layer_page(record, length, page, sizeof page, &page_length);
    if (answer != VPS_SUCCESS) {
        print_refusal("no layer page, refused", answer);
        return;
    }
    fwrite(page, 1, page_length, stdout);
    print_figures(length);
    answer = vps_write(record, length, output, sizeof output, &written);
    if (answer != VPS_SUCCESS) {
        print_refusal("not written, refused", answer);
        return;
    }
    int same = written == unit_length && memcmp(output, unit, unit_length) == 0;
    printf("written back: %" PRIu64 " bytes, %s\n", written, same ? "the same" : "not the same");
}

int main(int count, char **names) {
    for (int i = 1; i < count; i++) {
        FILE *file = fopen(names[i], "rb");
        if (file == NULL) {
            perror(names[i]);
            return 1;
        }
        size_t unit_length = fread(unit, 1, sizeof unit, file);
        int whole = fgetc(file) == EOF && !ferror(file);
        fclose(file);
        if (!whole) {
            fprintf(stderr, "%s: not read whole\n", names[i]);
            return 1;
        }
        printf("%s\n", names[i]);
        round_trip(unit_length);
    }
    return 0;
}
