/* libtap: the tap's calls for C. Build the library with `bin/build libtap_c`.
 *
 * Every call takes every input, ends, keeps to the memory that it is lent, and allocates nothing. A slice passes as its pointer and
 * its length: of bytes in bytes, of a table in numbers. A refusal writes to no table; an answer writes nothing behind its rows.
 *
 * What a caller in C must keep to, for no prover holds it there:
 *
 *   - A pointer is valid for its whole length while the call runs, and aligned for its type. It may be null only with length 0.
 *   - A table that is lent overlaps nothing else that the same call is lent: no bytes, no other table. Bytes may overlap bytes.
 *   - While a call runs nobody else writes what it is lent, or reads a table that it is lent.
 *
 * Refusals (docs/RULES.md, R1 to R9, TO5, BM3, U5, FV2, LS2, X1 and X2), and the `value` that each carries:
 *
 *   0  none
 *   1  a line of the text has none of the forms                                     its number, from 1
 *   2  the text passes a limit                                                      the line; 0 if it is too long
 *   3  a line of the text is out of place: no owner, no parent, a size path
 *      below level 0, a shift over 7                                                its number
 *   4  too long: a payload over 65,535 bytes; a body, an MPDU or a command
 *      over 2,048; a mask over 8,191                                                its length
 *   5  too short: an MPDU or a command of 0 or 1 byte                               its length
 *   6  no B has the base key that is sought                                         that key
 *   7  no candidate holds                                                           0
 *   8  the answer does not fit into the table                                       how many rows or nodes it has
 *   9  a body is not a frame                                                        0
 *  10  a total would pass 2^63 - 1                                                  0
 *  11  there is no such row, or it is no mask of nodes                              its number
 *  12  the text does not fit into the buffer                                        how many bytes it has
 *  13  there is no such capture firmware                                            its number
 *  14  a byte of an XML is outside of what is read (docs/XML.md)                    its place, from 0: at
 *                                                                                  most the XML's length
 *  15  a line of the text is out of plain form                                     its number, from 1
 *  16  a line of a listing is not of its form                                       its number, from 1
 */
#ifndef LIBTAP_H
#define LIBTAP_H

#include <stdbool.h>
#include <stddef.h>
#include <stdint.h>

#ifdef __cplusplus
extern "C" {
#endif

/* The numbers of a row. */
#define TAP_FRAME_WIDTH 13
#define TAP_HEADER_WIDTH 7
#define TAP_COMMAND_WIDTH 10

/* `refusal` is 0 and `value` the number that the call answers, or `refusal` is a number of the table above and `value` what it carries. */
typedef struct {
    uint64_t refusal;
    uint64_t value;
} TapAnswer;

/* ---- payloads, records, frames ---- */

/* Whom a beam wakes: the node, the hash of its home id and, at Long Range, the power. Each is one more than its number, or 0 where there is none. */
typedef struct {
    uint64_t node;
    uint64_t hash;
    uint64_t power;
} TapTarget;

/* The frame of a single record. `direction` is 0 for Rx, 1 for Tx; `region` is the PTI's; `rate` is 0 for 9.6 kbit/s, 1 for 40, 2 for
 * 100, 3 for Long Range; `rssi` is its byte, the two's complement; `beams` is 0 for a frame that is no beam; the MPDU is `length` bytes
 * from `start` of the record's body on; `target` is all 0 unless beams are a family of their own and this is one. */
typedef struct {
    uint64_t refusal;
    uint64_t value;
    uint64_t direction;
    uint64_t region;
    uint64_t channel;
    uint64_t rate;
    uint64_t rssi;
    uint64_t beams;
    uint64_t start;
    uint64_t length;
    TapTarget target;
} TapFrame;

/* A part of the caller's bytes: where it starts in them, and its length. */
typedef struct {
    uint64_t start;
    uint64_t length;
} TapPart;

/* The rate of a channel in a PTI region. 0 for what the tables do not have. */
uint8_t tap_speed_for(size_t channel, size_t region);

/* How often a beam repeats in the middle bytes of a record. */
size_t tap_beam_count(uint8_t rate, const uint8_t *middle, size_t middle_length);

/* How many bodies a payload has. Refuses by 4. */
TapAnswer tap_count_records(const uint8_t *payload, size_t payload_length);

/* Body k of a payload, from 0; an empty part where there is none or the payload is too long. */
TapPart tap_record_body(const uint8_t *payload, size_t payload_length, size_t k);

/* The frame of a record's body. `firmware` is the number of the capture firmware that wrote it: 2, or 3, whose regions have five bits. Where `family`
 * is false, all that starts with 0x55 is a beam; where it is true, only what also repeats or has under 9 bytes, and a beam is told by its target
 * too. Refuses by 13, 4 and 9. */
TapFrame tap_parse_record(const uint8_t *body, size_t body_length, size_t firmware, bool family);

/* Every frame of a payload, which that firmware wrote, a row each: direction, region, channel, rate; the RSSI's byte; how often the beam stands there, or 0; where the
 * MPDU starts in the payload, and its length (F17); the number of its record, from 0, by which tap_record_body shows the body, and where that record
 * begins in the payload (FP1); node, hash and power of a beam, each one more than its number, or 0 (BF2). Numbers of 16 bits. `family` is as above. Answers how
 * many rows. Refuses by 13, 4 and 8. */
TapAnswer tap_parse_payload(const uint8_t *payload, size_t payload_length, size_t firmware, bool family, uint16_t *table, size_t table_length);

/* ---- definition texts ---- */

/* Is the text accepted? Refuses by 1, 2 and 3. */
TapAnswer tap_check_frame_text(const uint8_t *text, size_t text_length);
TapAnswer tap_check_command_text(const uint8_t *text, size_t text_length);

/* A command text with each U line as an S line, into the buffer; nothing else of it is moved. Answers its length, which is that of the text. A
 * refusal writes nothing, an answer nothing behind the text. Refuses by 1 to 3, then 12. */
TapAnswer tap_tidy_command_text(const uint8_t *text, size_t text_length, uint8_t *buffer, size_t buffer_length);

/* A frame text as XML (docs/XML.md), into the buffer; the text has to be in plain form. Answers the XML's length. A refusal writes nothing, an answer
 * nothing behind the XML. Refuses by 1 to 3, then 15, then 12: a first call with no room tells by 12 how much is needed. */
TapAnswer tap_frame_text_to_xml(const uint8_t *text, size_t text_length, uint8_t *buffer, size_t buffer_length);

/* The frame text that an XML says, in plain form, into the buffer, the same. 60,000 bytes are enough for every text. Refuses by 14, then by 1 to 3 for the
 * text that would be written, with its line, then 12. The call has that text on its stack: some 60 KB (docs/HANDHELD.md). */
TapAnswer tap_xml_to_frame_text(const uint8_t *xml, size_t xml_length, uint8_t *buffer, size_t buffer_length);

/* Can no MPDU be held by two headers of the frame text, so that no order of its H blocks matters (OV5)? Answers 1 for yes, 0 where it cannot be told. Refuses by
 * 1, 2 and 3. */
TapAnswer tap_is_harmless(const uint8_t *text, size_t text_length);

/* A frame text with its H blocks sorted by name, into the buffer (O6). Answers its length, which is that of the text. A refusal writes nothing, an answer
 * nothing behind the text. Refuses by 1 to 3, then 12. */
TapAnswer tap_sort_headers(const uint8_t *text, size_t text_length, uint8_t *buffer, size_t buffer_length);

/* ---- masks of nodes ---- */

/* The nodes whose bits are set in a mask, rising, each once; node 1 is the first byte's lowest bit. Answers how many. Refuses by 4, a mask of
 * more than 8,191 bytes, and 8. `nodes_length` is how many nodes the table has room for. */
TapAnswer tap_mask_nodes(const uint8_t *mask, size_t mask_length, uint16_t *nodes, size_t nodes_length);

/* ---- headers ---- */

/* `is_read` is false where there is no value. */
typedef struct {
    bool is_read;
    uint64_t value;
} TapBits;

/* Which of the text's H lines it is, from 0, and its key; its name has `name_length` bytes from byte `name` of the text on; the payload
 * starts at byte `payload` of the MPDU; how many rows there are; whether the checksum or CRC is right; the H's flags. */
typedef struct {
    uint64_t refusal;
    uint64_t value;
    uint64_t number;
    uint64_t key;
    uint64_t name;
    uint64_t name_length;
    uint64_t payload;
    uint64_t rows;
    bool right;
    bool ack;
    bool routed;
    bool multicast;
    bool error;
} TapHeader;

/* The number that `width` bits form from the bit `start` on, the first bit highest: width 1 to 64, within the bytes. */
TapBits tap_read_bits(const uint8_t *data, size_t data_length, uint64_t start, uint64_t width);

/* Is the MPDU's last byte its checksum (speeds 0 and 1), or are its last two its CRC (above)? */
bool tap_check_crc(const uint8_t *mpdu, size_t mpdu_length, uint64_t speed);

/* The header of an MPDU, a row for each field, depth first: which of the text's P lines it is, from 0; its parent's row + 1, or 0; its first
 * bit; how many bits; 1 if it has a value, else 0; the value, or 0; which E of its set is its symbol, + 1, or 0 (H18). `region` is the code
 * of an F line, not a PTI region. Refuses by 1 to 8. At most 128 rows. */
TapHeader tap_decode_header(const uint8_t *text, size_t text_length, const uint8_t *mpdu, size_t mpdu_length, uint64_t region,
                            uint64_t speed, uint64_t *rows, size_t rows_length);

/* The nodes of row `row`, from 0, of what `tap_decode_header` answers, if that row is a field of type BITMASK, of whole bytes at a whole byte. It takes
 * no table of rows. Answers how many. Refuses by 1 to 7 as `tap_decode_header` does, then 11, then 8. */
TapAnswer tap_header_nodes(const uint8_t *text, size_t text_length, const uint8_t *mpdu, size_t mpdu_length, uint64_t region,
                           uint64_t speed, size_t row, uint16_t *nodes, size_t nodes_length);

/* Row `row`, from 0, of what `tap_decode_header` answers, as people read it (VT1): UTF-8, no zero byte behind it. It takes no table of rows. Answers its
 * length; 4,096 bytes are enough for every field. Refuses by 1 to 7 as `tap_decode_header` does, then 11, then 12. */
TapAnswer tap_header_value(const uint8_t *text, size_t text_length, const uint8_t *mpdu, size_t mpdu_length, uint64_t region,
                           uint64_t speed, size_t row, uint8_t *buffer, size_t buffer_length);

/* ---- listings of a header ---- */

/* The longest listing: 128 rows of seven numbers, and the header's number. */
#define TAP_LISTING_LENGTH 18837

/* What `tap_decode_header` answers, as a listing: a line for each row, its numbers in decimal with a tab between them, and last the header's number. It takes
 * the same arguments but for the table. Answers the listing's length. Refuses by 1 to 7, then 12. */
TapAnswer tap_write_listing(const uint8_t *text, size_t text_length, const uint8_t *mpdu, size_t mpdu_length, uint64_t region, uint64_t speed,
                            uint8_t *buffer, size_t buffer_length);

/* Is this listing the one that `tap_write_listing` writes, byte by byte? Answers 0 for yes, else the first of its lines that differs, from 1: its rows are
 * held against those of the header that its last line names, whether that holds or not. Refuses by 1 to 7, then 16. */
TapAnswer tap_judge_listing(const uint8_t *text, size_t text_length, const uint8_t *mpdu, size_t mpdu_length, uint64_t region, uint64_t speed,
                            const uint8_t *listing, size_t listing_length);

/* Where the command lies in an MPDU whose header ends at byte `payload`, as its answer says: before the checksum. An empty part at 0 where the two
 * leave no room for one. */
TapPart tap_command_part(const uint8_t *mpdu, size_t mpdu_length, uint64_t payload, uint64_t speed);

/* ---- totals of a capture ---- */

/* How many totals there are, and which (TO1): the frames of key K at rate R stand at 4 * K + R; then those of them whose checksum is wrong, the beams,
 * how often these stood there, the bytes of all frames, and the frames without a header, by 5, 6 and 7. */
#define TAP_TOTALS 1031
#define TAP_TOTAL_WRONG 1024
#define TAP_TOTAL_BEAMS 1025
#define TAP_TOTAL_REPEATS 1026
#define TAP_TOTAL_BYTES 1027
#define TAP_TOTAL_REFUSED 1023 /* and the refusal's number behind it: 5, 6 or 7 */

/* Adds the frames of a payload to totals that the caller lends, 0 at first: each by the text, at that region (the code of an F line) and its own rate. Firmware
 * and family are as of `tap_parse_payload`. Answers 0. Refuses by 13, 1 to 4 and 10, and leaves the totals as they were. */
TapAnswer tap_add_payload(const uint8_t *text, size_t text_length, uint64_t region, size_t firmware, bool family, const uint8_t *payload,
                          size_t payload_length, uint64_t (*totals)[TAP_TOTALS]);

/* More bytes than a text of totals has. */
#define TAP_TOTALS_LENGTH 32768

/* Totals as text, a line each (TO6): `key K R N`, none where N is 0, then `wrong N`, `beams N`, `repeats N`, `bytes N`, `refused 5 N`, `refused 6 N`,
 * `refused 7 N`. Answers its length. Refuses by 12. */
TapAnswer tap_print_totals(const uint64_t (*totals)[TAP_TOTALS], uint8_t *buffer, size_t buffer_length);

/* ---- commands ---- */

/* How many rows there are, and where the bytes that no parameter takes start in the payload. */
typedef struct {
    uint64_t refusal;
    uint64_t value;
    uint64_t rows;
    uint64_t remainder;
} TapParams;

/* The parameters of a command, whose payload starts with its class and command bytes, a row each: 0 for a parameter, 1 for some bits of one,
 * 2 for a repetition of a group; its line in the text, from 1; its parent's row + 1, or 0; where it starts and ends in the payload; 1 if it
 * has a value, else 0; the value, or 0; the line of the K that names it, or 0; which repetition it is, from 0; how many bytes it wanted that
 * are not there (C16, L3). Offsets of the text count over the entries answered so far, or, if by_position, over the Qs and Gs of the text
 * (D1). Refuses by 1 to 5 and 8. */
TapParams tap_decode_params(const uint8_t *text, size_t text_length, const uint8_t *payload, size_t payload_length, bool by_position,
                            uint64_t *rows, size_t rows_length);

/* One row of a command. `refusal` is 0 and the ten numbers behind `carried` are the row's, in the order of `tap_decode_params`; or `refusal` is a number of
 * the table above, `carried` what it carries, and the others are 0. */
typedef struct {
    uint64_t refusal;
    uint64_t carried;
    uint64_t kind;
    uint64_t line;
    uint64_t parent;
    uint64_t start;
    uint64_t end;
    uint64_t valued;
    uint64_t value;
    uint64_t named;
    uint64_t number;
    uint64_t lacking;
} TapRow;

/* Row `row`, from 0, of those that `tap_decode_params` writes, without a table: the walk passes over the rows before it. Refuses by 1 to 5 as that does, then
 * 11, so a screen pages through a command until 11 comes. */
TapRow tap_command_row(const uint8_t *text, size_t text_length, const uint8_t *payload, size_t payload_length, bool by_position, size_t row);

/* The nodes of row `row`, from 0, of those that `tap_decode_params` writes, if that row is a parameter of type BITMASK. It takes no table of rows. Answers
 * how many. Refuses by 1 to 5 as `tap_decode_params` does, then 11, then 8. */
TapAnswer tap_command_nodes(const uint8_t *text, size_t text_length, const uint8_t *payload, size_t payload_length, bool by_position, size_t row,
                            uint16_t *nodes, size_t nodes_length);

/* Row `row`, from 0, of those that `tap_decode_params` writes, as people read it (VT2): UTF-8, no zero byte behind it. It takes no table of rows. Answers
 * its length; 6,138 bytes are enough for every row. Refuses by 1 to 5 as `tap_decode_params` does, then 11, then 12. */
TapAnswer tap_command_value(const uint8_t *text, size_t text_length, const uint8_t *payload, size_t payload_length, bool by_position, size_t row,
                            uint8_t *buffer, size_t buffer_length);

#ifdef __cplusplus
}
#endif

#endif
