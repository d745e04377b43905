/*
 * H.266 video parameter sets (VPS): reading a unit into a record, writing a record as a unit, looking up a record's sections,
 * printing its layer page, its rates, buffer sizes and picture intervals as plain figures, byte stuffing, and refusals as sentences
 * that can be read out. The functions stand in the archive libvps_c.a (README.md says how to link it); each is proved to do what is
 * said here, for all bytes, numbers and lengths.
 *
 * Every function but vps_sentence_number, which gives the number that a sentence names, gives 0 (VPS_SUCCESS) or the number of a
 * refusal. None fails in another way. A buffer is a pointer and the number of its elements. What a caller owes:
 *   - each pointer points to as many elements as its length says, and is not null, also where the length is 0;
 *   - a number that a function stores through a pointer has a place of its own, and no two buffers or numbers of one call overlap;
 *   - buffers of uint32_t and uint64_t are aligned as C aligns these types.
 * No function keeps a pointer, allocates, or uses anything but its arguments, so calls may run at the same time on different buffers.
 *
 * The record is a list of 32-bit numbers in nine sections. docs/DEFINITION.md and the definition that it maps say what each number is.
 * A list is a well-formed record exactly if some unit is read as it; so none is whose id, record[1], is 0.
 *
 * The sentence of a refusal is three words with a blank between them: place, field and fault. No two refusals have the same, so
 * that the sentence alone gives the number back. docs/REFUSALS.md has them all, with what each means and what to do.
 */
#ifndef TEGLYOVASH_VPS_H
#define TEGLYOVASH_VPS_H

#include <stddef.h>
#include <stdint.h>

#ifdef __cplusplus
extern "C" {
#endif

/* The longest RBSP, in bytes: a work buffer of this length is long enough for every unit. */
#define VPS_MOST_RBSP_BYTES 65535

/* The longest record, in numbers: a record buffer of this length is long enough for every unit. */
#define VPS_MOST_RECORD_NUMBERS 535855

/* The longest unit that is written, in bytes: an output of this length is long enough for every record. */
#define VPS_MOST_UNIT_BYTES 98304

/* 257 sets, a line of 72 bytes each: an output of this length is long enough for every layer page. */
#define VPS_MOST_PAGE_BYTES 18504

/* Three words of at most 15 bytes each and two blanks: an output of this length is long enough for every sentence. */
#define VPS_MOST_SENTENCE_BYTES 47

/*
 * What a function gives: success, or a refusal by its number, with its place and condition; in order of checks, as a unit is read.
 * T is the number of output layer sets, and M that of those with more than one layer.
 */
enum vps_answer {
    VPS_SUCCESS = 0,

    /* header: under 2 bytes */
    VPS_UNIT_TOO_SHORT = 1,
    /* header: type (second byte, bits 3 to 7, bit 0 the lowest) not 14 */
    VPS_NOT_A_VPS = 2,

    /* lengths: RBSP over 65,535 bytes */
    VPS_RBSP_TOO_LONG = 3,
    /* lengths: work buffer shorter than RBSP */
    VPS_WORK_TOO_SHORT = 4,

    /* layers: vps_video_parameter_set_id 0, directly before 5 */
    VPS_ID_ZERO = 34,
    /* layers: max_sublayers_minus1 is 7 */
    VPS_SUBLAYERS_RESERVED = 5,
    /* layers: ids not strictly rising */
    VPS_LAYER_IDS_NOT_RISING = 6,
    /* layers: dependent layer without direct reference */
    VPS_NO_DIRECT_REFERENCE = 7,

    /* sets: mode 3 */
    VPS_MODE_RESERVED = 8,
    /* sets: row without output layer */
    VPS_NO_OUTPUT_LAYER = 9,
    /* sets: more PTLs than T */
    VPS_PTLS_OVER_SETS = 10,

    /* PTL: max tid over max_sublayers_minus1 */
    VPS_PTL_MAX_TID = 11,
    /* PTL: alignment bit 1 before the first PTL */
    VPS_PTL_ALIGNMENT = 12,
    /* PTL: index not below PTL count */
    VPS_PTL_INDEX = 13,

    /* each ue: 32 zeros inside the RBSP */
    VPS_CODE_TOO_LONG = 14,
    /* each ue: its last bit past the RBSP; behind 14, and before the value's own limit */
    VPS_CODE_PAST_END = 35,

    /* DPB: slots over M */
    VPS_DPB_SLOTS = 15,
    /* DPB: max tid over max_sublayers_minus1 */
    VPS_DPB_MAX_TID = 16,
    /* DPB: buffering over 15 */
    VPS_DPB_BUFFERING = 17,
    /* DPB: reorder over buffering */
    VPS_DPB_REORDER = 18,
    /* DPB: depth over 8 */
    VPS_DPB_DEPTH = 19,
    /* DPB: index not below slots */
    VPS_DPB_INDEX = 20,

    /* timing: units or scale 0, after both HRD flags */
    VPS_TIMING_ZERO = 21,
    /* timing: schedule count field over 31 */
    VPS_SCHEDULE_COUNT = 22,
    /* timing: entries over M */
    VPS_TIMING_ENTRIES = 23,
    /* timing: max tid over max_sublayers_minus1 */
    VPS_TIMING_MAX_TID = 24,
    /* timing: elemental duration over 2,047 */
    VPS_ELEMENTAL_DURATION = 25,
    /* timing: index not below entries */
    VPS_TIMING_INDEX = 26,

    /* end: no bit left for the stop bit */
    VPS_STOP_BIT_MISSING = 27,
    /* end: stop bit 0 */
    VPS_STOP_BIT_ZERO = 28,
    /* end: a 1 between stop bit and boundary */
    VPS_ALIGNMENT_BIT_ONE = 29,

    /* record: record buffer too short; the needed length is stored */
    VPS_RECORD_TOO_SHORT = 30,

    /* writer, layer page, rates, buffer sizes, picture intervals: not well formed */
    VPS_NOT_WELL_FORMED = 31,
    /* writer, layer page, adding and removing stuffing, sentences: output too short */
    VPS_OUTPUT_TOO_SHORT = 32,
    /* rates, buffer sizes, picture intervals: no timing section, or no such entry, sublayer or schedule in it */
    VPS_ITEM_MISSING = 33
};

/* The sections of a record, by number. */
enum vps_section_number {
    VPS_SECTION_GENERAL = 0,
    VPS_SECTION_LAYERS = 1,
    VPS_SECTION_ROWS = 2,
    VPS_SECTION_PTLS = 3,
    VPS_SECTION_OLS = 4,
    VPS_SECTION_DPB = 5,
    VPS_SECTION_TIMING = 6,
    VPS_SECTION_EXTENSION = 7,
    VPS_SECTION_TRAILER = 8
};

/*
 * Reads one unit, the bytes of a NAL unit without start code, into a record.
 *
 * unit, unit_length      the unit; it is not changed
 * work, work_length      a work buffer, for the RBSP: the unit behind its 2-byte header with stuffing removed
 * record, record_length  where the record is stored; lengths in numbers, not bytes
 * length                 see below
 * bits_used              see below
 *
 * 0           *length is the record's length and *bits_used the RBSP's bits through the trailing bits. The record stands at the
 *             beginning of record, and the RBSP at the beginning of work; what is behind each is as before.
 * 1 to 4      work, record, *length and *bits_used are as before.
 * 5 to 29     the RBSP stands at the beginning of work, and what is behind it is as before; record, *length and *bits_used are as before.
 * 30          *length is the length that the record needs; *bits_used and record are as before; work is as for 5 to 29.
 * 34, 35      as 5 to 29.
 *
 * A field of fixed width, a flag too, is read past the RBSP's end: what is missing of it reads 0. So 34 is a set id of 0, whatever
 * else is in the RBSP, even if that is empty. A ue code (zeros, a one, as many bits of suffix as zeros) is not: where the end cuts it,
 * among its zeros, before its one or in its suffix, and where no bit of it is left, 35 is given. 32 zeros before the end are 14. A code
 * whose last bit is the RBSP's last bit is whole.
 *
 * No other number is given.
 */
uint32_t vps_parse(const uint8_t *unit, size_t unit_length, uint8_t *work, size_t work_length, uint32_t *record,
                   size_t record_length, uint64_t *length, uint64_t *bits_used);

/*
 * Writes a record as a unit: header, and the stuffed RBSP.
 *
 * record, record_length  exactly the record, as long as vps_parse said, in numbers; it is not changed
 * output, output_length  where the unit is stored
 * written                see below
 *
 * 0           *written is the unit's length in bytes. The unit stands at the beginning of output; what is behind it is as before.
 * 31, 32      output and *written are as before.
 *
 * No other number is given.
 */
uint32_t vps_write(const uint32_t *record, size_t record_length, uint8_t *output, size_t output_length, uint64_t *written);

/*
 * Looks up a section of a record.
 *
 * record, record_length  exactly the record, as long as vps_parse said, in numbers; it is not changed
 * number                 0 to 8 (enum vps_section_number)
 * start, count           the section is the part record[*start] to record[*start + *count - 1]
 *
 * 0           always. Of a record that is not well formed, and of a number over 8, the part is the empty one at the record's
 *             end: *start is record_length, and *count is 0.
 */
uint32_t vps_section(const uint32_t *record, size_t record_length, uint32_t number, uint64_t *start, uint64_t *count);

/*
 * Prints the layer page of a record: its output layer sets, a line each, in set order.
 *
 * A line has 72 bytes: the set's index, right-aligned in 3; a blank; how many layers the set has, right-aligned in 2; a blank; 64
 * places; and a line feed. Place i is '#' if layer i is in the set, '.' if it is not, and a blank from the number of layers on. A set
 * has its output layers and all that they reach through direct references, over any number of steps.
 *
 * record, record_length  exactly the record, as long as vps_parse said, in numbers; it is not changed
 * output, output_length  where the page is stored; VPS_MOST_PAGE_BYTES are always enough, and exactly as many as it has are
 * length                 see below
 *
 * 0           *length is the page's length in bytes, 72 for each set. The page stands at the beginning of output; what is behind it
 *             is as before, so there is no terminating zero.
 * 31          the record is not well formed, whatever the output's length; output and *length are as before.
 * 32          output is shorter than the page; output and *length are as before.
 *
 * No other number is given.
 */
uint32_t vps_layer_page(const uint32_t *record, size_t record_length, uint8_t *output, size_t output_length, uint64_t *length);

/*
 * Figures of the timing section: the next three functions. What is asked for is named by its timing entry, its sublayer in that
 * entry and, for a schedule, its kind, NAL or VCL, and its place among those of its kind; each is counted from 0, in the order of
 * the record. An entry has the sublayers that are stored in it: sublayer 0 alone where the section's sublayer flag is 0. Of a kind
 * whose flag is 1 a sublayer has schedule count field + 1 schedules; of a kind whose flag is 0, none.
 *
 * Each call checks the whole record, so its time is linear in record_length, whatever is asked for.
 */

/* The kinds of schedules. */
enum vps_schedules {
    VPS_SCHEDULES_NAL = 0,
    VPS_SCHEDULES_VCL = 1
};

/*
 * Tells the bit rate of a schedule, in bits a second: (rate field + 1) * 2^(6 + bit rate scale).
 *
 * record, record_length  exactly the record, as long as vps_parse said, in numbers; it is not changed
 * entry, sublayer        where the schedule is
 * vcl                    its kind, 0 or 1 (enum vps_schedules)
 * schedule               which of its kind
 * rate                   see below
 *
 * 0           *rate is the bit rate: at least 64, and at most (2^32 - 1) * 2^21 = 9,007,199,252,643,840.
 * 31          the record is not well formed, whatever is asked for; *rate is as before.
 * 33          there is no timing section, no such schedule in it, or vcl is over 1; *rate is as before.
 *
 * No other number is given.
 */
uint32_t vps_bit_rate(const uint32_t *record, size_t record_length, uint32_t entry, uint32_t sublayer, uint32_t vcl,
                      uint32_t schedule, uint64_t *rate);

/*
 * Tells the buffer size of a schedule, in bits: (size field + 1) * 2^(4 + buffer size scale).
 *
 * record, record_length  exactly the record, as long as vps_parse said, in numbers; it is not changed
 * entry, sublayer        where the schedule is
 * vcl                    its kind, 0 or 1 (enum vps_schedules)
 * schedule               which of its kind
 * size                   see below
 *
 * 0           *size is the buffer size: at least 16, and at most (2^32 - 1) * 2^19 = 2,251,799,813,160,960.
 * 31          the record is not well formed, whatever is asked for; *size is as before.
 * 33          there is no timing section, no such schedule in it, or vcl is over 1; *size is as before.
 *
 * No other number is given.
 */
uint32_t vps_buffer_size(const uint32_t *record, size_t record_length, uint32_t entry, uint32_t sublayer, uint32_t vcl,
                         uint32_t schedule, uint64_t *size);

/*
 * Tells the picture interval of a sublayer, in whole microseconds, rounded down: (elemental field + 1) * units * 1,000,000 / scale.
 * Only a sublayer whose rate-within-CVS flag is 1 has one.
 *
 * record, record_length  exactly the record, as long as vps_parse said, in numbers; it is not changed
 * entry, sublayer        which sublayer
 * known                  see below
 * microseconds           see below
 *
 * 0           if the flag is 1, *known is 1 and *microseconds the interval: 0 if it is under a microsecond, and at most
 *             2,048 * (2^32 - 1) * 1,000,000 = 8,796,093,020,160,000,000, which fits int64_t too. If the flag is 0, *known and
 *             *microseconds are 0.
 * 31          the record is not well formed, whatever is asked for; *known and *microseconds are as before.
 * 33          there is no timing section, or no such sublayer in it; *known and *microseconds are as before.
 *
 * No other number is given.
 */
uint32_t vps_picture_interval(const uint32_t *record, size_t record_length, uint32_t entry, uint32_t sublayer, uint32_t *known,
                              uint64_t *microseconds);

/*
 * Removes stuffing: drops the 03 of each 00 00 03, from the left, also at the end.
 *
 * source, source_length  a NAL unit's payload, the bytes behind its header; it is not changed
 * output, output_length  where the RBSP is stored; source_length bytes are always enough
 * length                 see below
 *
 * 0           *length is the RBSP's length. It stands at the beginning of output; what is behind it is as before.
 * 32          output and *length are as before.
 *
 * No other number is given.
 */
uint32_t vps_ebsp_to_rbsp(const uint8_t *source, size_t source_length, uint8_t *output, size_t output_length,
                          uint64_t *length);

/*
 * Adds stuffing: puts 03 before a byte of at most 03 that follows two zeros, and at the end after two zeros.
 *
 * source, source_length  an RBSP; it is not changed
 * output, output_length  where the payload is stored; source_length + source_length / 2 bytes are always enough
 * length                 see below
 *
 * 0           *length is the payload's length. It stands at the beginning of output; what is behind it is as before.
 * 32          output and *length are as before.
 *
 * No other number is given.
 */
uint32_t vps_rbsp_to_ebsp(const uint8_t *source, size_t source_length, uint8_t *output, size_t output_length,
                          uint64_t *length);

/*
 * Stores the sentence of a refusal: place, field and fault, each a word, with one blank between them.
 *
 * number                 a refusal's number (enum vps_answer), or any other number, whose sentence is the empty one
 * output, output_length  where the sentence is stored; exactly as many bytes as it has are enough
 * length                 see below
 *
 * 0           *length is the sentence's length in bytes; for 0 and every number that is not a refusal's it is 0. The sentence stands
 *             at the beginning of output; what is behind it is as before, so there is no terminating zero.
 * 32          output and *length are as before.
 *
 * No other number is given.
 */
uint32_t vps_sentence(uint32_t number, uint8_t *output, size_t output_length, uint64_t *length);

/*
 * Tells which refusal's sentence some bytes are.
 *
 * sentence, sentence_length  exactly the sentence, as vps_sentence stores it; it is not changed
 *
 * What is given is the refusal's number, and 0 for all other bytes, the empty ones too: it is no answer, and nothing is refused.
 */
uint32_t vps_sentence_number(const uint8_t *sentence, size_t sentence_length);

#ifdef __cplusplus
}
#endif

#endif
