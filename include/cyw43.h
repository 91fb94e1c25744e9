/* The proved CYW43439 driver's calls, for C. Link with libcyw43_c.a.
 *
 * A slice is two arguments, a pointer and how many elements lie there. Slices of one call must not overlap, and a pointer must be
 * good for its count; nothing else is asked: any bytes, any lengths, any numbers.
 *
 * session   CYW43_SESSION_BYTES bytes that hold the state and the scan list between calls; cyw43_fresh makes them.
 * undo      CYW43_UNDO_BYTES bytes in which a call keeps what it may have to put back. No call needs what another left there: any
 *           content will do, and sessions may share them. What they have after a call is not said below; it may be bytes of session
 *           and buf, a passphrase too.
 * rec       the recording: the words of the bus's answers so far, from the call's beginning on.
 * log       the bus operations that the call has asked for, as words, are put here. For cyw43_poll one word more than rec has is
 *           always enough, 65 for recordings of up to 64 words; README.md, 'How long a log must be', has the number for each length.
 * buf       the work buffer, CYW43_BUFFER_BYTES bytes, the same for all calls of a session.
 * result    result[0] becomes the call's value, result[1] the number of words in log; what does not fit is left out.
 *
 * Every entry but cyw43_fresh gives back the number of the refusal, 0 for success:
 *   1 bad argument   2 time-out   3 chip error   4 busy   5 nothing waits   6 output too short   7 bus fault, the value its place
 *   8 the next answer is not wholly recorded   9 the next answer is not one to the operation   10 event header above its size
 *   11 a copied part ends past the work buffer   12 the operation does not fit the log   13 another length of undo or of the work buffer
 *   100 the session's bytes are no session's: another length, a number out of its range, or a part that is not there and not 0.
 *
 * 100 comes before 13, and 13 before all others. After 100 everything is as before the call, result and log too. After 13 everything
 * but result is, and both its numbers are 0.
 * After 8, 9 and 12 session and buf are as before the call, and log has the operations so far: after 8 its last one is to be
 * done on the bus, its answer put at the end of rec, and the same call made again with the longer recording.
 * After any other number the session's bytes are a session's again, and hold the state and list that the driver's definition says.
 * Words of log past result[1] are untouched. Equal arguments give equal results, whatever undo has: nothing is kept outside the slices.
 */
#ifndef CYW43_H
#define CYW43_H

#include <stddef.h>
#include <stdint.h>

#define CYW43_SESSION_BYTES 1393
#define CYW43_UNDO_BYTES 3444
#define CYW43_BUFFER_BYTES 2048
#define CYW43_NO_SESSION 100

/* Where a session's bytes have what a caller may want to see. Words are little-endian. */
enum {
    CYW43_SEQUENCE = 0, /* of the next packet to be sent */
    CYW43_CREDIT = 1, /* the chip's last: (credit - sequence) modulo 256 of it is left; at 0, or while flow is not 0, a packet waits */
    CYW43_FLOW = 2,
    CYW43_ID = 3,
    CYW43_SCAN_DONE = 5, /* 1 once a scan is done, until another begins */
    CYW43_SCANNING = 6, /* 1 while a scan is in progress */
    CYW43_STATE = 21, /* 0 down, 1 connecting, 2 connected, 3 disconnecting */
    CYW43_NETWORKS = 41, /* eight bytes: how many of the records are networks heard */
    CYW43_RECORDS = 49, /* 32 records of 42 bytes: SSID 32, BSSID 6, SSID length, channel, RSSI 2 */
    CYW43_RECORD_BYTES = 42
};

/* A fresh session. 0, or 100 where the length is another: then nothing is written. */
uint32_t cyw43_fresh(uint8_t *session, size_t session_len);

#define CYW43_LENT                                                                                                             \
    uint8_t *session, size_t session_len, uint8_t *undo, size_t undo_len, const uint32_t *rec, size_t rec_len, uint32_t *log,  \
        size_t log_len, uint8_t *buf, size_t buf_len, uint64_t *result, size_t result_len

/* Brings the interface up. country: two letters in the low 16 bits, the first one lowest; above them the revision, 0 for the default. */
uint32_t cyw43_init(uint32_t country, CYW43_LENT);

/* Begins a scan; success without an operation while one is in progress. Networks come with polls, and so does the scan's end:
 * CYW43_SCANNING is then 0, and CYW43_SCAN_DONE 1, or 0 where the radio says that the scan failed (any status but 0, success, and 8,
 * a network). The networks heard stay either way until another scan begins, and that may be at once. */
uint32_t cyw43_scan(CYW43_LENT);

/* Begins a join. auth 0 open, 1 WPA TKIP, 2 WPA2 AES, 3 WPA2 mixed, 4 WPA3 SAE, 5 WPA3 or WPA2. 4 unless down. */
uint32_t cyw43_join(uint32_t auth, const uint8_t *ssid, size_t ssid_len, const uint8_t *passphrase, size_t passphrase_len, CYW43_LENT);

uint32_t cyw43_leave(CYW43_LENT);
uint32_t cyw43_abort(CYW43_LENT);

/* Reads what came. Value 0 nothing, 1 a frame waits, 2 a join has failed. */
uint32_t cyw43_poll(CYW43_LENT);

/* Sends a frame of at most 2,030 bytes; interface 0 to 2. */
uint32_t cyw43_send(uint32_t interface, const uint8_t *frame, size_t frame_len, CYW43_LENT);

/* Takes the frame that waits. Value: its length; it lies at out's front. A refusal leaves out as it was. No bus operation, so no undo. */
uint32_t cyw43_take(uint8_t *session, size_t session_len, const uint8_t *buf, size_t buf_len, uint8_t *out, size_t out_len, uint64_t *result, size_t result_len);

/* pin 0 to 2; level 0 is low. */
uint32_t cyw43_gpio(uint32_t pin, uint32_t level, CYW43_LENT);

/* Value: the address, its first byte highest. */
uint32_t cyw43_mac(CYW43_LENT);

/* Value: the word. */
uint32_t cyw43_get(uint32_t cmd, uint32_t interface, CYW43_LENT);
uint32_t cyw43_set(uint32_t cmd, uint32_t value, uint32_t interface, CYW43_LENT);

/* Name and bytes have 2,019 bytes together at most. */
uint32_t cyw43_variable(uint32_t interface, const uint8_t *name, size_t name_len, const uint8_t *bytes, size_t bytes_len, CYW43_LENT);

uint32_t cyw43_up(CYW43_LENT);

#endif
