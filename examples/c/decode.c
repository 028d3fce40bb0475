/* decode FRAME-TEXT COMMAND-TEXT PAYLOAD: the frames of a PTI payload, each with its header's fields by a frame text and, where it carries a
 * command, with its parameters by a command text. The three are files: two definition texts, and the payload in hex. All memory is static,
 * as on a handheld. examples/c/run builds it and runs it. */
#include <stdio.h>
#include <stdlib.h>
#include <string.h>

#include "libtap.h"

/* The capture firmware that wrote the payload. */
enum { FIRMWARE = 2 };

/* Beams are a family of their own: an ordinary frame may start with their marker. */
enum { FAMILY = true };

enum { LONGEST_TEXT = 60000, LONGEST_PAYLOAD = 65535, FRAMES = 2978, HEADER_ROWS = 128, COMMAND_ROWS = 512, NODES = 256, LONGEST_VALUE = 6138 };

static uint8_t frame_text[LONGEST_TEXT + 1];
static uint8_t given_text[LONGEST_TEXT + 1];
static uint8_t command_text[LONGEST_TEXT];
static uint8_t payload[LONGEST_PAYLOAD + 1];
static uint16_t frames[FRAMES * TAP_FRAME_WIDTH];
static uint64_t header_rows[HEADER_ROWS * TAP_HEADER_WIDTH];
static uint64_t command_rows[COMMAND_ROWS * TAP_COMMAND_WIDTH];
static uint16_t nodes[NODES];
static uint8_t listing[TAP_LISTING_LENGTH];
static uint8_t value[LONGEST_VALUE];

/* A whole file: one byte more than the longest that a call takes, so that it can say that it is too long. */
static size_t read_file(const char *name, uint8_t *bytes, size_t room) {
    FILE *file = fopen(name, "rb");
    if (!file) {
        perror(name);
        exit(2);
    }
    size_t length = fread(bytes, 1, room, file);
    fclose(file);
    return length;
}

/* The bytes of a file of hex digits. */
static size_t read_hex(const char *name, uint8_t *bytes, size_t room) {
    FILE *file = fopen(name, "r");
    if (!file) {
        perror(name);
        exit(2);
    }
    size_t length = 0;
    unsigned byte;
    while (length < room && fscanf(file, "%2x", &byte) == 1) {
        bytes[length++] = (uint8_t)byte;
    }
    fclose(file);
    return length;
}

/* The F code of a PTI region (definitions/README.md, "Regions"). */
static uint64_t code_of(uint64_t region) {
    static const uint8_t codes[18] = {255, 0, 1, 2, 3, 5, 5, 32, 7, 6, 33, 8, 9, 9, 9, 11, 11, 11};
    return region < 18 ? codes[region] : 255;
}

static void print_refusal(uint64_t refusal, uint64_t value) {
    printf("refused %llu %llu\n", (unsigned long long)refusal, (unsigned long long)value);
}

static void print_numbers(const char *what, const uint64_t *row, int count) {
    printf("%s", what);
    for (int i = 0; i < count; i++) {
        printf(" %llu", (unsigned long long)row[i]);
    }
    printf("\n");
}

static void print_nodes(uint64_t count) {
    printf("      %llu nodes:", (unsigned long long)count);
    for (uint64_t i = 0; i < count; i++) {
        printf(" %u", nodes[i]);
    }
    printf("\n");
}

/* Row `row` of a header as people read it. */
static void show_value(const uint8_t *mpdu, size_t length, const uint16_t *frame, uint64_t row, size_t text_length) {
    TapAnswer shown = tap_header_value(frame_text, text_length, mpdu, length, code_of(frame[1]), frame[3], row, value, sizeof value);
    if (shown.refusal) {
        print_refusal(shown.refusal, shown.value);
        return;
    }
    printf("      reads %.*s\n", (int)shown.value, (const char *)value);
}

/* The nodes that row `row` of a header addresses, if it is a mask of nodes. */
static void show_nodes(const uint8_t *mpdu, size_t length, const uint16_t *frame, uint64_t row, size_t text_length) {
    TapAnswer listed = tap_header_nodes(frame_text, text_length, mpdu, length, code_of(frame[1]), frame[3], row, nodes, NODES);
    if (listed.refusal) {
        return;
    }
    print_nodes(listed.value);
}

/* Our own listing of a header, which is judged right, and with its last line cut off is not. */
static void show_listing(const uint8_t *mpdu, size_t length, const uint16_t *frame, size_t text_length) {
    TapAnswer written = tap_write_listing(frame_text, text_length, mpdu, length, code_of(frame[1]), frame[3], listing, sizeof listing);
    TapAnswer whole = tap_judge_listing(frame_text, text_length, mpdu, length, code_of(frame[1]), frame[3], listing, written.value);
    TapAnswer cut = tap_judge_listing(frame_text, text_length, mpdu, length, code_of(frame[1]), frame[3], listing, written.value - 1);
    printf("    listing of %llu bytes: %s, without its line end refused %llu %llu\n", (unsigned long long)written.value,
           whole.refusal || whole.value ? "no" : "yes", (unsigned long long)cut.refusal, (unsigned long long)cut.value);
}

/* The same of row `row` of a command. */
static void show_command_nodes(const uint8_t *bytes, size_t length, uint64_t row, size_t text_length) {
    TapAnswer listed = tap_command_nodes(command_text, text_length, bytes, length, false, row, nodes, NODES);
    if (!listed.refusal) {
        print_nodes(listed.value);
    }
}

/* Row `row` of a command as people read it. */
static void show_command_value(const uint8_t *bytes, size_t length, uint64_t row, size_t text_length) {
    TapAnswer shown = tap_command_value(command_text, text_length, bytes, length, false, row, value, sizeof value);
    if (!shown.refusal) {
        printf("      reads %.*s\n", (int)shown.value, (const char *)value);
    }
}

/* Pages through a command without a table: are its rows those that stand in the table, and is there none behind them? */
static bool is_paged(const uint8_t *bytes, size_t length, uint64_t rows, size_t text_length) {
    for (uint64_t i = 0; i < rows; i++) {
        const uint64_t *told = command_rows + i * TAP_COMMAND_WIDTH;
        TapRow row = tap_command_row(command_text, text_length, bytes, length, false, i);
        if (row.refusal || memcmp(&row.kind, told, TAP_COMMAND_WIDTH * sizeof *told)) {
            return false;
        }
    }
    return tap_command_row(command_text, text_length, bytes, length, false, rows).refusal == 11;
}

static void show_command(const uint8_t *bytes, size_t length, size_t text_length) {
    TapParams params = tap_decode_params(command_text, text_length, bytes, length, false, command_rows, sizeof command_rows / sizeof *command_rows);
    if (params.refusal) {
        printf("  command ");
        print_refusal(params.refusal, params.value);
        return;
    }
    printf("  command %02x %02x, remainder at %llu\n", bytes[0], bytes[1], (unsigned long long)params.remainder);
    for (uint64_t i = 0; i < params.rows; i++) {
        print_numbers("    parameter", command_rows + i * TAP_COMMAND_WIDTH, TAP_COMMAND_WIDTH);
        show_command_value(bytes, length, i, text_length);
        show_command_nodes(bytes, length, i, text_length);
    }
    printf("    paged one by one: %s\n", is_paged(bytes, length, params.rows, text_length) ? "the same" : "not the same");
}

/* Whom a beam wakes: the columns of BF2, each one more than its number, or 0. */
static void show_beam(const uint16_t *frame) {
    static const char *const names[3] = {"node", "hash", "power"};
    printf("  beam, heard %u times", frame[5]);
    for (int i = 0; i < 3; i++) {
        if (frame[10 + i]) {
            printf(", %s %u", names[i], frame[10 + i] - 1);
        }
    }
    printf("\n");
}

static void show_frame(const uint16_t *frame, size_t frame_text_length, size_t command_text_length) {
    const uint8_t *mpdu = payload + frame[6];
    size_t length = frame[7];
    uint64_t rate = frame[3];
    printf("frame");
    for (int i = 0; i < TAP_FRAME_WIDTH; i++) {
        printf(" %u", frame[i]);
    }
    printf("\n");
    if (frame[5]) {
        show_beam(frame);
        return;
    }
    TapHeader header = tap_decode_header(frame_text, frame_text_length, mpdu, length, code_of(frame[1]), rate, header_rows,
                                         sizeof header_rows / sizeof *header_rows);
    if (header.refusal) {
        printf("  header ");
        print_refusal(header.refusal, header.value);
        return;
    }
    printf("  header %llu, %.*s, key %llu, %s%s, payload at %llu, checksum %s\n", (unsigned long long)header.number,
           (int)header.name_length, (const char *)frame_text + header.name, (unsigned long long)header.key, header.routed ? "routed" : "direct", header.ack ? " ack" : "", (unsigned long long)header.payload,
           header.right ? "right" : "wrong");
    for (uint64_t i = 0; i < header.rows; i++) {
        print_numbers("    field", header_rows + i * TAP_HEADER_WIDTH, TAP_HEADER_WIDTH);
        show_value(mpdu, length, frame, i, frame_text_length);
        show_nodes(mpdu, length, frame, i, frame_text_length);
    }
    show_listing(mpdu, length, frame, frame_text_length);
    TapPart command = tap_command_part(mpdu, length, header.payload, rate);
    if (2 <= command.length) {
        show_command(mpdu + command.start, command.length, command_text_length);
    }
}

/* What the payload comes to: twice the same payload, and then one that would pass the limit. */
static void show_totals(size_t frame_text_length, size_t payload_length) {
    static uint64_t totals[TAP_TOTALS];
    static uint8_t page[TAP_TOTALS_LENGTH];
    for (int i = 0; i < 3; i++) {
        if (i == 2) {
            totals[TAP_TOTAL_BYTES] = INT64_MAX;
        }
        TapAnswer added = tap_add_payload(frame_text, frame_text_length, code_of(frames[1]), FIRMWARE, FAMILY, payload, payload_length, &totals);
        if (added.refusal) {
            printf("totals ");
            print_refusal(added.refusal, added.value);
        }
    }
    TapAnswer printed = tap_print_totals(&totals, page, sizeof page);
    printf("totals of %llu bytes\n%.*s", (unsigned long long)printed.value, (int)printed.value, (const char *)page);
}

/* Another maker's XML as our text, that text as XML again, by the room that a first call asks for, and an XML with a comment, which is not read. */
static void show_xml(void) {
    static const char theirs[] = "<FrameDefinition>\n <DefineSet Name=\"Kinds\"><Define Text=\"Ack &amp; more\" Name=\"ACK\" Key=\"0x03\"/></DefineSet>\n"
                                 " <RadioFrequency Name=\"EU\" Text=\"Europe\" BaseHeader=\"0\" Code=\"1\"/>\n</FrameDefinition>\n";
    static const char noted[] = "<FrameDefinition><!-- none --></FrameDefinition>";
    static uint8_t text[LONGEST_TEXT];
    static uint8_t xml[1024];
    TapAnswer read = tap_xml_to_frame_text((const uint8_t *)theirs, sizeof theirs - 1, text, sizeof text);
    printf("text of %llu bytes\n%.*s", (unsigned long long)read.value, (int)read.value, (const char *)text);
    TapAnswer wanted = tap_frame_text_to_xml(text, read.value, xml, 0);
    if (wanted.refusal == 12 && wanted.value <= sizeof xml) {
        TapAnswer written = tap_frame_text_to_xml(text, read.value, xml, wanted.value);
        printf("XML of %llu bytes\n%.*s", (unsigned long long)written.value, (int)written.value, (const char *)xml);
    }
    TapAnswer unread = tap_xml_to_frame_text((const uint8_t *)noted, sizeof noted - 1, text, sizeof text);
    printf("XML with a comment ");
    print_refusal(unread.refusal, unread.value);
}

int main(int count, char **words) {
    if (count != 4) {
        fprintf(stderr, "usage: decode FRAME-TEXT COMMAND-TEXT PAYLOAD\n");
        return 2;
    }
    size_t frame_text_length = read_file(words[1], frame_text, sizeof frame_text);
    size_t given_length = read_file(words[2], given_text, sizeof given_text);
    size_t payload_length = read_hex(words[3], payload, sizeof payload);

    TapAnswer verdict = tap_check_frame_text(frame_text, frame_text_length);
    if (!verdict.refusal) {
        /* Checks the text, and makes the S lines of it that its U lines stand for. */
        verdict = tap_tidy_command_text(given_text, given_length, command_text, sizeof command_text);
    }
    size_t command_text_length = verdict.value;
    TapAnswer parsed = verdict.refusal ? verdict : tap_parse_payload(payload, payload_length, FIRMWARE, FAMILY, frames, sizeof frames / sizeof *frames);
    if (parsed.refusal) {
        print_refusal(parsed.refusal, parsed.value);
        return 1;
    }
    printf("%llu records\n", (unsigned long long)tap_count_records(payload, payload_length).value);
    for (uint64_t i = 0; i < parsed.value; i++) {
        show_frame(frames + i * TAP_FRAME_WIDTH, frame_text_length, command_text_length);
    }
    show_totals(frame_text_length, payload_length);
    show_xml();
    printf("ok\n");
    return 0;
}
