/* Bernkessel from C: the recorder's parts, proved in Rattle, as one archive.
 *
 * Build it with `tools/build bernkessel` and link target/staticlib/libbernkessel.a; of the C library it uses memcpy and memset alone.
 *
 * Every function is total: it reads no byte outside what it is lent, never allocates, and refuses what it cannot take by one of the
 * numbers below, BK_NONE for no refusal. A refused call changes neither memory that is lent nor the state: it gives back the very state
 * that came in. Bytes of an output beyond those written stay as they were.
 *
 * What the caller owes: pointers are never NULL, also where the length is 0; a pointer and the length behind it name memory that is
 * there; memory lent for writing overlaps nothing else that is lent in the same call.
 *
 * States and answers are structs by value. Every value of a state has a meaning, so a state may come from anywhere. examples/record.c shows
 * the reader, the gatherer, a record and the ring at work. */
#ifndef BERNKESSEL_H
#define BERNKESSEL_H

#include <stddef.h>
#include <stdint.h>

#ifdef __cplusplus
extern "C" {
#endif

/* ---- numbers */

/* Refusals, the numbers of the scope paper's table. */
enum {
    BK_NONE = 0,
    BK_CODE_NOT_PERMITTED = 1,
    BK_OUTPUT_SHORT = 2,
    BK_TIME_EARLIER = 3,
    BK_WAIT_NOT_OVER = 4,
    BK_REPLY_AWAITED = 5,
    BK_NOT_A_DESCRIPTOR = 6,
    BK_NOT_A_REPLY = 7,
    BK_NOT_A_SAMPLE = 8,
    BK_NOT_A_RECORD = 9,
    BK_NOT_A_RING = 10,
    BK_HEAD_OVER = 11,
    BK_NO_SUCH_NUMBER = 12,
    BK_NO_SAMPLE_SENT = 13
};

/* Codes of requests. */
enum {
    BK_STOP = 0x25,
    BK_RESET = 0x40,
    BK_SCAN = 0x20,
    BK_FORCE_SCAN = 0x21,
    BK_GET_INFO = 0x50,
    BK_GET_HEALTH = 0x52
};

/* Phases of a reader; any other byte is BK_IDLE. */
enum {
    BK_IDLE = 0,
    BK_SEEK_INFO = 1,
    BK_SEEK_HEALTH = 2,
    BK_SEEK_SCAN = 3,
    BK_INFO_REPLY = 4,
    BK_HEALTH_REPLY = 5,
    BK_SCANNING = 6
};

/* Why a call of bk_reader_read stopped. */
enum {
    BK_ALL_TAKEN = 0,
    BK_NO_ROOM = 1,
    BK_DESCRIPTOR = 2,
    BK_REPLY = 3,
    BK_BAD_HEALTH = 4
};

/* Stages of a collector; any other byte is BK_STAGE_EMPTY. */
enum {
    BK_STAGE_EMPTY = 0,
    BK_STAGE_STARTED = 1,
    BK_STAGE_CODED = 2,
    BK_STAGE_SIZED = 3
};

/* States of the model of the scanner; any other byte is BK_MODEL_IDLE. */
enum {
    BK_MODEL_IDLE = 0,
    BK_MODEL_SCANNING = 1,
    BK_MODEL_FORCE_SCANNING = 2,
    BK_MODEL_PROTECTION_STOP = 3
};

/* Sizes: of a ring's memory, a record, a turn's cells and serial, the largest payload, an info and a health reply, a sample's bytes and
 * words; and of an output that no listing is too long for. */
enum {
    BK_RING_BYTES = 49153,
    BK_RECORD_BYTES = 754,
    BK_CELLS = 360,
    BK_SERIAL_BYTES = 16,
    BK_PAYLOAD_BYTES = 255,
    BK_INFO_BYTES = 20,
    BK_HEALTH_BYTES = 3,
    BK_SAMPLE_BYTES = 5,
    BK_SAMPLE_WORDS = 3,
    BK_LISTING_BYTES = 1710
};

/* ---- shared structs */

/* An angle in 64ths of a degree. */
typedef struct {
    uint16_t q6;
} bk_angle_q6;

/* A distance in quarters of a millimetre; 0 is none. */
typedef struct {
    uint16_t q2;
} bk_distance_q2;

/* A sample; S is 0 where `start` is 0, and otherwise 1. */
typedef struct {
    uint8_t start;
    uint8_t quality;
    bk_angle_q6 angle;
    bk_distance_q2 distance;
} bk_sample;

/* What a writer answers: the bytes (or words) written at the front of the output, or 0 and the refusal. */
typedef struct {
    size_t bytes;
    uint8_t refusal;
} bk_written;

/* ---- codecs: a writer puts bytes at the front of `out`; a reader takes exactly the bytes of one thing, and answers zeros with a refusal */

/* What announces a reply: its length, below 2^30, its mode, 0 or 1, and its type. */
typedef struct {
    uint32_t length;
    uint8_t mode;
    uint8_t kind;
} bk_descriptor;

typedef struct {
    bk_descriptor descriptor;
    uint8_t refusal;
} bk_descriptor_answer;

/* The scanner's info: model, minor and major number of the firmware, hardware, serial. */
typedef struct {
    uint8_t model;
    uint8_t minor;
    uint8_t major;
    uint8_t hardware;
    uint8_t serial[16];
} bk_info;

typedef struct {
    bk_info info;
    uint8_t refusal;
} bk_info_answer;

/* The scanner's health: an error code and a status, 0 to 2. */
typedef struct {
    uint16_t error;
    uint8_t status;
} bk_health;

typedef struct {
    bk_health health;
    uint8_t refusal;
} bk_health_answer;

typedef struct {
    bk_sample sample;
    uint8_t refusal;
} bk_sample_answer;

/* A request of any code with its payload. Refuses BK_CODE_NOT_PERMITTED for a payload that the code cannot carry, then BK_OUTPUT_SHORT. */
bk_written bk_request_write(uint8_t code, const uint8_t *payload, size_t payload_len, uint8_t *out, size_t out_len);

/* Refuses BK_NOT_A_DESCRIPTOR for a length or a mode that none has, then BK_OUTPUT_SHORT. */
bk_written bk_descriptor_write(bk_descriptor descriptor, uint8_t *out, size_t out_len);

/* Refuses BK_NOT_A_DESCRIPTOR. */
bk_descriptor_answer bk_descriptor_read(const uint8_t *bytes, size_t bytes_len);

/* Refuses BK_OUTPUT_SHORT. */
bk_written bk_info_write(bk_info info, uint8_t *out, size_t out_len);

/* Refuses BK_NOT_A_REPLY for other than BK_INFO_BYTES. */
bk_info_answer bk_info_read(const uint8_t *bytes, size_t bytes_len);

/* Refuses BK_NOT_A_REPLY for a status that none has, then BK_OUTPUT_SHORT. */
bk_written bk_health_write(bk_health health, uint8_t *out, size_t out_len);

/* Refuses BK_NOT_A_REPLY for other than BK_HEALTH_BYTES, or a status that none has. */
bk_health_answer bk_health_read(const uint8_t *bytes, size_t bytes_len);

/* The five bytes of a sample. Refuses BK_NOT_A_SAMPLE for an angle or a quality that none has, then BK_OUTPUT_SHORT. */
bk_written bk_sample_write(bk_sample sample, uint8_t *out, size_t out_len);

/* The three words of a sample, as bk_reader_read writes them: its angle, its distance, and twice its quality plus S. The answer counts words.
 * Refuses as bk_sample_write does. */
bk_written bk_sample_write_words(bk_sample sample, uint16_t *row, size_t row_len);

/* Of exactly BK_SAMPLE_BYTES. Refuses BK_NOT_A_SAMPLE. */
bk_sample_answer bk_sample_read(const uint8_t *bytes, size_t bytes_len);

/* Of the first BK_SAMPLE_BYTES of what is lent. Refuses BK_NOT_A_SAMPLE. */
bk_sample_answer bk_sample_front(const uint8_t *part, size_t part_len);

/* Of its three words. Refuses BK_NOT_A_SAMPLE. */
bk_sample_answer bk_sample_read_words(uint16_t angle, uint16_t distance, uint16_t mark);

/* ---- the session: what a host may send, and when */

/* A session: the time of the last request accepted, how long after it the next one waits, both in milliseconds, and whether a single
 * reply is awaited: 0 not, any other byte yes. */
typedef struct {
    uint64_t last;
    uint64_t wait;
    uint8_t awaited;
} bk_session;

typedef struct {
    bk_session session;
    bk_written written;
} bk_sent;

/* A fresh session: no time accepted, no wait, nothing awaited. */
bk_session bk_session_new(void);

/* Writes one of the six requests at a time in milliseconds. Refuses BK_TIME_EARLIER, BK_CODE_NOT_PERMITTED (another code, or a payload),
 * BK_WAIT_NOT_OVER, BK_REPLY_AWAITED, BK_OUTPUT_SHORT, in this order. */
bk_sent bk_session_send(bk_session session, uint64_t time, uint8_t code, const uint8_t *payload, size_t payload_len, uint8_t *out, size_t out_len);

/* The awaited reply has ended. */
bk_session bk_session_reply_ended(bk_session session);

/* ---- the bench's side: the collector of requests and the model of the scanner */

/* How much of a packet is there: its stage, and of BK_STAGE_CODED the code, of BK_STAGE_SIZED all fields. A count over the size is read as
 * the size. */
typedef struct {
    uint8_t kind;
    uint8_t code;
    uint8_t size;
    uint8_t count;
    uint8_t sum;
} bk_stage;

/* A collector: the packet so far, when it began, and the time of the last byte accepted, in milliseconds. */
typedef struct {
    bk_stage stage;
    uint64_t begun;
    uint64_t last;
} bk_collector;

/* The collector after a byte; where `complete` is 1 the byte completed a packet of this code, whose payload is the first `size` bytes of the
 * memory lent, and where it is 0 it did not. */
typedef struct {
    bk_collector collector;
    uint8_t complete;
    uint8_t code;
    uint8_t size;
    uint8_t refusal;
} bk_collected;

/* No packet is begun. */
bk_collector bk_collector_new(void);

/* One byte at a time in milliseconds; lend the same payload memory for all bytes of a packet. Refuses BK_TIME_EARLIER. */
bk_collected bk_collector_byte(bk_collector collector, uint64_t time, uint8_t b, uint8_t payload[BK_PAYLOAD_BYTES]);

/* The model: the info given at the start, the error code, its state, and whether the motor is stable and whether the status set is 1: 0 not,
 * any other byte yes. */
typedef struct {
    bk_info info;
    uint16_t error;
    uint8_t state;
    uint8_t stable;
    uint8_t warning;
} bk_model;

typedef struct {
    bk_model model;
    bk_written written;
} bk_asked;

typedef struct {
    bk_model model;
    uint8_t refusal;
} bk_health_set;

/* An idle scanner with this info. */
bk_model bk_model_new(bk_info info);

/* Writes what the scanner sends on a request. Refuses BK_CODE_NOT_PERMITTED, then BK_OUTPUT_SHORT. */
bk_asked bk_model_request(bk_model model, uint8_t code, uint8_t *out, size_t out_len);

/* Writes a sample as the scanner sends it. Refuses BK_NO_SAMPLE_SENT where it sends none, BK_NOT_A_SAMPLE, BK_OUTPUT_SHORT. */
bk_written bk_model_sample(bk_model model, bk_sample sample, uint8_t *out, size_t out_len);

/* A fault: the scanner goes to protection stop. */
bk_model bk_model_fault(bk_model model);

/* The motor is stable, or not where the byte is 0. */
bk_model bk_model_set_motor(bk_model model, uint8_t stable);

/* The error code alone. */
bk_model bk_model_set_error(bk_model model, uint16_t error);

/* The status alone. Refuses BK_NOT_A_REPLY for a status over 1. */
bk_health_set bk_model_set_status(bk_model model, uint8_t status);

/* Status and error code together. Refuses as bk_model_set_status does, and then sets neither. */
bk_health_set bk_model_set_health(bk_model model, uint8_t status, uint16_t error);

/* ---- the reader of the response stream */

/* A reader: its phase, the first `n` bytes of `held`, and how many bytes it skipped. More than the phase holds is read as the most it holds. */
typedef struct {
    uint8_t phase;
    uint8_t n;
    uint8_t held[20];
    uint32_t skipped;
} bk_reader;

typedef struct {
    bk_reader reader;
    uint8_t refusal;
} bk_told;

/* The reader after a call, the bytes taken, the words written, why it stopped, and the reply where that is BK_REPLY. */
typedef struct {
    bk_reader reader;
    size_t taken;
    size_t words;
    uint8_t stop;
    uint8_t reply[20];
} bk_reading;

/* A fresh reader is idle. */
bk_reader bk_reader_new(void);

/* Tells the reader a request that was sent; the bytes held are forgotten and count as skipped. Refuses BK_CODE_NOT_PERMITTED. */
bk_told bk_reader_tell(bk_reader reader, uint8_t code);

/* One call: reads the input, writes three words for each sample into `words`, and stops at the input's end (BK_ALL_TAKEN), before a sample
 * that has no room (BK_NO_ROOM), and behind a descriptor (BK_DESCRIPTOR), a reply (BK_REPLY) and a health reply that does not read
 * (BK_BAD_HEALTH). Call it again with the input from `taken` on. Refuses nothing. */
bk_reading bk_reader_read(bk_reader reader, const uint8_t *input, size_t input_len, uint16_t *words, size_t words_len);

/* ---- turns */

/* A gatherer: how many samples the open turn has, 0 where none is open. A count over 8192 is read as 8192. */
typedef struct {
    uint16_t count;
} bk_gatherer;

/* The gatherer after the call, and the count of samples of the turn that closed, 0 where none closed. */
typedef struct {
    bk_gatherer gatherer;
    uint16_t turn;
    uint8_t refusal;
} bk_gathered;

/* The same, and how many words were taken. */
typedef struct {
    bk_gathered gathered;
    size_t words;
} bk_row_gathered;

/* No turn is open. */
bk_gatherer bk_gatherer_new(void);

/* A new request drops an open turn. */
bk_gatherer bk_gatherer_request(bk_gatherer gatherer);

/* One sample. `filling` has the cells of the open turn; where the sample closes one, its cells are then in `closed`.
 * Refuses BK_NOT_A_SAMPLE: an angle or a quality that no sample has. */
bk_gathered bk_gatherer_sample(bk_gatherer gatherer, bk_sample sample, uint16_t filling[BK_CELLS], uint16_t closed[BK_CELLS]);

/* A row of words as bk_reader_read writes it, up to and including a sample that closes a turn. Call it again with the words behind those
 * taken. Refuses BK_NOT_A_SAMPLE where not all of the row is samples. */
bk_row_gathered bk_gatherer_row(bk_gatherer gatherer, const uint16_t *words, size_t words_len, uint16_t filling[BK_CELLS], uint16_t closed[BK_CELLS]);

/* ---- turn records */

typedef struct {
    uint32_t number;
    uint8_t refusal;
} bk_number;

typedef struct {
    uint16_t count;
    uint8_t refusal;
} bk_count;

typedef struct {
    bk_distance_q2 distance;
    uint8_t refusal;
} bk_cell;

/* Writes a record of BK_RECORD_BYTES. Refuses BK_NOT_A_RECORD for a count that no turn has, then BK_OUTPUT_SHORT. */
bk_written bk_record_write(uint32_t number, uint16_t count, const uint8_t serial[BK_SERIAL_BYTES], const uint16_t cells[BK_CELLS], uint8_t *out, size_t out_len);

/* Whether bytes read as a record: BK_NONE or BK_NOT_A_RECORD. */
uint8_t bk_record_check(const uint8_t *rec, size_t rec_len);

/* The turn number. Refuses BK_NOT_A_RECORD. */
bk_number bk_record_number(const uint8_t *rec, size_t rec_len);

/* The sample count. Refuses BK_NOT_A_RECORD. */
bk_count bk_record_count(const uint8_t *rec, size_t rec_len);

/* Cell c. Refuses BK_NOT_A_RECORD, then BK_NO_SUCH_NUMBER. */
bk_cell bk_record_cell(const uint8_t *rec, size_t rec_len, size_t c);

/* Writes the serial of a record, BK_SERIAL_BYTES. Refuses BK_NOT_A_RECORD, then BK_OUTPUT_SHORT. */
bk_written bk_record_serial(const uint8_t *rec, size_t rec_len, uint8_t *out, size_t out_len);

/* ---- the ring, a memory of BK_RING_BYTES
 *
 * One writer at a time: what is promised of a ring is promised of one history of stores. While one caller adds a record, no other may store into the same
 * memory; reading is free. */

typedef struct {
    size_t turns;
    uint8_t refusal;
} bk_held;

/* A part of the memory that was lent: `length` bytes from `offset` on; none where it is refused. */
typedef struct {
    size_t offset;
    size_t length;
    uint8_t refusal;
} bk_part;

/* How many turns are held. Refuses BK_NOT_A_RING, BK_HEAD_OVER. */
bk_held bk_ring_held(const uint8_t *mem, size_t mem_len);

/* Store k of a record, which touches one byte: 0 to 753 are the record's bytes, 754 is the head.
 * Refuses BK_NOT_A_RING, BK_HEAD_OVER, BK_NOT_A_RECORD, BK_NO_SUCH_NUMBER. */
uint8_t bk_ring_store(uint8_t *mem, size_t mem_len, const uint8_t *rec, size_t rec_len, size_t k);

/* All stores of a record, in order. Refuses BK_NOT_A_RING, BK_HEAD_OVER, BK_NOT_A_RECORD. */
uint8_t bk_ring_add(uint8_t *mem, size_t mem_len, const uint8_t *rec, size_t rec_len);

/* Where turn i stands, 0 being the oldest: a record of BK_RECORD_BYTES that reads.
 * Refuses BK_NOT_A_RING, BK_HEAD_OVER, BK_NO_SUCH_NUMBER, BK_NOT_A_RECORD. */
bk_part bk_ring_turn(const uint8_t *mem, size_t mem_len, size_t i);

/* Whether all turns that are held read: BK_NONE, or BK_NOT_A_RING, BK_HEAD_OVER, BK_NOT_A_RECORD. */
uint8_t bk_ring_all_read(const uint8_t *mem, size_t mem_len);

/* Makes the ring empty, whatever its head was. Refuses BK_NOT_A_RING. */
uint8_t bk_ring_erase(uint8_t *mem, size_t mem_len);

/* Writes the ring's text: the count, then a line for each turn, oldest first; what is refused is told in the text.
 * Refuses BK_OUTPUT_SHORT, and never where the output has BK_LISTING_BYTES. */
bk_written bk_ring_list(const uint8_t *mem, size_t mem_len, uint8_t *out, size_t out_len);

/* ---- the recorder's core: session, reader and gatherer in one value */

/* A host: its session, reader and gatherer, and the serial of the last info reply, zeros before the first. */
typedef struct {
    bk_session session;
    bk_reader reader;
    bk_gatherer gatherer;
    uint8_t serial[16];
} bk_host;

typedef struct {
    bk_host host;
    bk_written written;
} bk_host_sent;

/* As bk_reading, with the host after the call. */
typedef struct {
    bk_host host;
    size_t taken;
    size_t words;
    uint8_t stop;
    uint8_t reply[20];
} bk_heard;

/* The host after the call, the words taken, and the count of samples of the turn that closed, 0 where none closed. */
typedef struct {
    bk_host host;
    size_t words;
    uint16_t turn;
    uint8_t refusal;
} bk_turned;

/* A fresh host: nothing sent, nothing awaited, no turn open. */
bk_host bk_host_new(void);

/* Writes a request and tells it to reader and gatherer. Refuses as bk_session_send does. */
bk_host_sent bk_host_send(bk_host host, uint64_t time, uint8_t code, const uint8_t *payload, size_t payload_len, uint8_t *out, size_t out_len);

/* Reads bytes of the scanner as bk_reader_read does; the end of a reply ends the wait, and the serial of an info reply is kept. Refuses nothing. */
bk_heard bk_host_read(bk_host host, const uint8_t *input, size_t input_len, uint16_t *words, size_t words_len);

/* Gathers a row of words as bk_gatherer_row does; where a turn closes, `rec` is its record with this number. Refuses BK_NOT_A_SAMPLE. */
bk_turned bk_host_gather(bk_host host, const uint16_t *row, size_t row_len, uint32_t number, uint16_t filling[BK_CELLS], uint16_t closed[BK_CELLS],
                         uint8_t rec[BK_RECORD_BYTES]);

/* The number of the next turn, which goes on from the newest turn that the ring holds. Refuses BK_NOT_A_RING, BK_HEAD_OVER, BK_NOT_A_RECORD. */
bk_number bk_host_next_number(const uint8_t *mem, size_t mem_len);

#ifdef __cplusplus
}
#endif

#endif
