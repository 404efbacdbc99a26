/* Malquindo: a proved file machine for passport chips (LDS2).
 *
 * Command bytes, rights and card image go in. Response, status word and image come out. Secure messaging and keys stay with
 * the layer above.
 *
 * Memory. The caller owns every buffer. The library reads and writes only the buffers of the call at hand. It keeps no
 * pointer and no state between calls: what it answers depends on the arguments alone. It allocates nothing; of the C
 * library it needs memcpy and memset.
 *
 * What the caller must see to. Nothing checks these three:
 *   - each pointer is to as many elements as its length says (bytes, or of a list of places 32-bit numbers), aligned for
 *     them, valid for reading and, where it is not const, for writing;
 *   - no buffer that is written overlaps another buffer of the call;
 *   - no pointer is null, even where the length is 0.
 * Beyond that every function takes any bytes, lengths and numbers, and always returns.
 *
 * Results. A result is one number of 64 bits. malquindo_file refuses nothing, and its result stands with it. Of the other
 * functions the upper 32 bits are the refusal, 0 where the call is not refused. Of malquindo_stamp_read alone 1 to 3 in the
 * upper 32 bits are no refusals: they are the reason why the record is no stamp.
 *    1  command        the response buffer is shorter than MALQUINDO_RESPONSE_LEN
 *       rights         the buffer for the rights is shorter than MALQUINDO_RIGHTS_LEN
 *    2  command, cut,  the image is not well formed
 *       move
 *    3  open           the rights are not MALQUINDO_RIGHTS_LEN bytes
 *    4  open           the session buffer is shorter than MALQUINDO_SESSION_LEN
 *       command, cut   it is shorter, its bytes are no session, or the session does not fit the image
 *    6  index          the body, the list or the number does not fit; each function says when
 *    7  rights         an extension is not well formed, or the rights of a known one have the wrong size
 *    8  rights         a known extension stands in a run for the second time
 *    9  certificate    the card's body or the desk's body is not well formed
 *   10  move           the list lays out no valid image
 *   11  move           a kind of the old image is not in the list
 *   12  move           a room is too small for its content
 *   13  move           the target is shorter than the new image
 *   15  stamp          the list has fewer than MALQUINDO_STAMP_PLACES entries
 * What the lower 32 bits mean stands with each function. On a refusal they are 0.
 */
#ifndef MALQUINDO_H
#define MALQUINDO_H

#include <stddef.h>
#include <stdint.h>

#ifdef __cplusplus
extern "C" {
#endif

#define MALQUINDO_RIGHTS_LEN 60     /* the rights of a chain: three certificates of 20 bytes */
#define MALQUINDO_SESSION_LEN 1054  /* a session; malquindo_session_len() says the same */
#define MALQUINDO_RESPONSE_LEN 2050 /* the shortest response buffer: 2,048 bytes of data, SW1, SW2 */
#define MALQUINDO_IMAGE_LEN 262144  /* the longest card image */
#define MALQUINDO_CHAIN_LEN 1024    /* the most bytes of data that a command has, whole or in links */
#define MALQUINDO_RECORDS 254       /* the most records of a file */
#define MALQUINDO_STAMP_LEN 391     /* the longest stamp */
#define MALQUINDO_STAMP_PLACES 26   /* the places of a stamp's fields: two numbers for each of 13 */

/* How many bytes a session has: 1,054.
 *
 *   0 to 19     rights: flags, travel, visa, 17 bytes of biometrics
 *   20          the selected application: 0 master file, 1 travel, 2 visa, 3 biometrics
 *   21          the current place: 0 none, 1 a file, 2 a file and a record
 *   22, 23      the id of the current file, little-endian; 0 where there is none
 *   24          the number of the current record; 0 where there is none
 *   25, 26      how many bytes the open chain has so far, little-endian; 0 where no chain is open
 *   27, 28, 29  its INS, P1 and P2; 0 where no chain is open
 *   30 to 1053  its bytes
 *
 * What a session does not use is zero, also behind the bytes of its chain. Bytes that are not so are no session, and neither are
 * those with a chain that no links could have left: of more than 1,024 bytes, of an INS that no command has, or of a P1 and P2
 * with which the INS gets 0x6A86 as a link (malquindo_command tells of links).
 *
 * A session buffer may be longer. Bytes behind the first 1,054 are neither read nor written. */
size_t malquindo_session_len(void);

/* Reads the rights of three certificates from their extensions: the MALQUINDO_RIGHTS_LEN bytes that malquindo_open takes.
 *
 * Each run has the extensions of a certificate, one behind the other; the first run is for the first certificate, and so on. A
 * run may have any length. For a certificate without extensions it is 0; the pointer is still not null. An extension is the
 * object 73 with two objects in it: 06, the identifier, and then 53, the rights. Three identifiers are known: 67 81 08 01 01 09
 * 01 03 (travel, rights of 1 byte), the same with 02 03 at its end (visa, 1 byte) and with 03 03 (biometrics, 17 bytes). They
 * may stand in any order. An extension with any other identifier, of any length, even 0, is passed over, whatever rights it
 * has; it may stand there more than once.
 *
 * 0: the first MALQUINDO_RIGHTS_LEN bytes of the buffer are the rights, 20 bytes for each certificate: a flag for each known
 * extension that is there (b1 travel, b2 visa, b3 biometrics), the travel byte, the visa byte, 17 bytes of biometrics. The
 * rights stand as in the certificate; what is absent is zero. Bytes behind them stay as they came.
 *
 * Refusal 1, before all: rights_len is below MALQUINDO_RIGHTS_LEN. The buffer then stays as it came. Refusals 7 and 8 tell of
 * the first extension at fault in the first run that has one. Where both are true of it, 7 is told. The first
 * MALQUINDO_RIGHTS_LEN bytes of the buffer are then zero, even where another run has no fault: opening with them gives no
 * rights. Refusal 7 has these reasons: the tag is not 73; a length goes past the end, or is none of 00 to 7F, 81 80 to 81 FF and
 * 82 01 00 to 82 FF FF; the value of 73, known or not, is not exactly 06 and then 53; the rights of a known extension have the
 * wrong size. Refusal 8: a known extension stands in its run for the second time.
 *
 * The lower 32 bits of the result are always 0. The runs are only read, and may overlap. */
uint64_t malquindo_rights(const uint8_t *first, size_t first_len, const uint8_t *second, size_t second_len,
                          const uint8_t *third, size_t third_len, uint8_t *rights, size_t rights_len);

/* Opens a session with the rights of three certificates of 20 bytes each.
 *
 * Writes the session into the first 1,054 bytes of the session buffer, where it has as many. It does so on refusal 3 too: that
 * session is the one that 60 zero bytes open, which has no rights. No chain is open in a new session: one that was is dropped.
 * A shorter buffer stays as it came.
 *
 * Refusals, tested in this order: 3, 4. The lower 32 bits of the result are always 0: an opening has no status word. */
uint64_t malquindo_open(const uint8_t *rights, size_t rights_len, uint8_t *session, size_t session_len);

/* Runs one command on a card image.
 *
 * The lower 32 bits of the result are length * 2^16 + status. The status is 256 * SW1 + SW2. The length says how many bytes
 * of the response are the answer: the data, then SW1 and SW2. Bytes behind the answer stay as they came.
 *
 * The image changes only where the status is 0x9000. With any other status, and on a refusal, it stays as it came. The session
 * is stored where the status is 0x9000, and where another status drops an open chain: then only the chain's bytes of the
 * session change, and become zero. Otherwise it stays as it came, on a refusal with its chain. The command is only read.
 *
 * Links. The data of a command may come in several links, such as a long certificate from a reader that cannot send long
 * commands. Every link but the last has b5 of CLA set: 10 stands for 00, and 90 for 80. It has Lc and data and no Le, and is
 * answered 0x9000 without data. It changes nothing but the chain of the session, which now has these bytes behind the earlier
 * ones: no file is looked for, and no right is asked for. The last link has the same INS, P1 and P2, and b5 is not set. The
 * data of all links, joined, is then the data of one command, with the last link's Le; the last link itself may lack data. The
 * command is answered as if it had come whole, and the chain has ended.
 *
 * With an open chain, a command whose INS, P1 or P2 is not the chain's gets 0x6883: the last link was expected. 0x6700, for
 * bytes that are no command, 0x6E00 and 0x6D00 come before it. A link but the last gets 0x6A86 for its P1 and P2 as a whole
 * command does, and then 0x6700 where it lacks data or has an Le. More than MALQUINDO_CHAIN_LEN bytes in all get 0x6700, at
 * any link. Every status but 0x9000 drops the chain: begin anew with the first link.
 *
 * A biometrics file has up to 131,072 bytes. READ BINARY with INS B0 has an offset of 15 bits, up to 32,767. INS B1 reaches
 * all of the file. Its P1-P2 are the file's id, or 0000 for the current file. It has Lc and Le; an Le of 1 or 2 gets
 * 0x6700. Its data is the object 54 with an offset of 1 to 3 bytes, as in UPDATE BINARY. The reply is the object 53: the
 * length is one byte up to 127, 81 and one byte up to 255, 82 and two bytes above; then as many bytes of the file as fit,
 * 2,044 at the most. Read on at the offset behind them, until 0x6B00 says that the file ends.
 *
 * Refusals, tested in this order: 1, 2, 4. A refused command leaves the response as it came. */
uint64_t malquindo_command(uint8_t *image, size_t image_len, uint8_t *session, size_t session_len,
                           const uint8_t *command, size_t command_len, uint8_t *response, size_t response_len);

/* For testers: leaves the image as it is when the power goes in the middle of a command, behind so many of its stores.
 *
 * APPEND RECORD and ACTIVATE write the image by stores of one byte each, in this order. An append of n bytes has n + 4: the
 * low byte and the high byte of the record's length, the record's bytes, the high byte of the file's count and last the low
 * byte of the count. ACTIVATE has one: the state. With the last store the command is done; before it, every file holds what
 * it held before the command. What an append left in the free room does not matter: the next append uses that room.
 * This is the order in the source. A compiler or a memory may change it (docs/AUDIT.md).
 *
 * Where the command is one of these two and malquindo_command would answer it with 0x9000, the first `stores` of its stores
 * are made. A number beyond the last one is the whole command. Any other command changes nothing here, and neither do these
 * two where they would get another status. UPDATE BINARY is among the others, though it writes the image. Of an append in
 * links the last link has the stores of all the data, joined, and a link before it has none.
 *
 * The lower 32 bits of the result are how many stores the whole command has, 0 where it changes nothing here. Session and
 * command are only read, and may overlap each other. The session stays as before the command, with its chain; it still fits
 * the image.
 *
 * Refusals, tested in this order: 2, 4. The image then stays as it came. */
uint64_t malquindo_cut(uint8_t *image, size_t image_len, const uint8_t *session, size_t session_len,
                       const uint8_t *command, size_t command_len, size_t stores);

/* Moves a card to rooms of other sizes: writes a new image into the target.
 *
 * The list has 6 bytes for each section of the new image, those that stand before the section's body: the body's length
 * (4 bytes, little-endian), then the kind (2 bytes, little-endian).
 *
 * Every file of the old image is in the new one. Records keep their numbers. A biometrics file keeps its state and what is
 * written. Free bytes become zero. A kind that only the list has becomes an empty file; a biometrics file is Deactivated.
 *
 * The lower 32 bits of the result are the length of the new image. Bytes of the target behind it stay as they came. Old
 * image and list are only read.
 *
 * Refusals, tested in this order: 2, 10, 11, 12, 13. A refused move leaves the target as it came. Refusal 10 has these
 * reasons: list_len is no multiple of 6; a kind is unknown, or not above the one before; a body is shorter than 2 bytes or,
 * of a biometrics file, shorter than 5 or longer than 131,077; an application is not whole; the image would be longer than
 * MALQUINDO_IMAGE_LEN. */
uint64_t malquindo_move(const uint8_t *old, size_t old_len, const uint8_t *list, size_t list_len,
                        uint8_t *target, size_t target_len);

/* Tells where the body of a file stands in a card image: place * 2^32 + length, both in bytes. The image is only read.
 *
 * The kind is that of the section: 0x0101 EntryRecords, 0x0102 ExitRecords, 0x011A travel certificates, 0x0203 VisaRecords,
 * 0x021A visa certificates, 0x031A biometrics certificates, 0x0400 + n Biometrics n. The result is 0 where the image has no
 * such file, or is not well formed. The place of a file that is there is 6 or more, so its result is never 0.
 *
 * A command leaves every body where it is. After a move, ask again. */
uint64_t malquindo_file(const uint8_t *image, size_t image_len, uint16_t kind);

/* Finds the certificate that a stamp names: the record of travel certificates whose number is the stamp's reference byte.
 *
 * The card is the body of the file 0x011A of a card image; malquindo_file tells where it stands. The desk is a body of the
 * same form that the caller keeps; without a certificate it is two zero bytes. Both are only read, and may overlap. Where
 * the card's body has a record of this number, the certificate is that record; else it is the one in the desk's body, where
 * that has it; else it is missing. References 0x00 and 0xFF are always missing.
 *
 * The lower 32 bits of the result are which * 2^28 + place * 2^10 + length. Which is 1 for the card's body and 2 for the
 * desk's. The certificate is the bytes of that body from the place on, as many as the length says. Where it is missing, the
 * result is 0.
 *
 * Refusal 9, before all: the card's body or the desk's body is not well formed. It has fewer than 2 bytes, more than 254
 * records, or a record that has no byte, has more than 929 bytes or goes past the body's end. Bytes behind the last record
 * are free. A body may be longer than an image. */
uint64_t malquindo_certificate(const uint8_t *card, size_t card_len, const uint8_t *desk, size_t desk_len,
                               uint8_t reference);

/* An index: a list of places, one for each record of a file's body, so that a record is read without a walk over those before
 * it. A place is where the length of the record (2 bytes, little-endian) stands in the body, counted in bytes from the body's
 * first; the record begins 2 bytes behind it. The body is that of a record file of a card image; malquindo_file tells where
 * it stands. Another body of that form does, too, and may be longer than an image. The caller keeps the list.
 * MALQUINDO_RECORDS entries are enough for any file.
 *
 * Build the index once. After each APPEND RECORD to the file that is answered 0x9000, extend it. Then it has the place of
 * every record, whatever other commands are run. If an append was missed, build anew. A move changes no place either: lend
 * the body of the new image. */

/* Builds an index: writes the places of all records into the first entries of the list, in the order of the records. Entries
 * behind them stay as they came. The lower 32 bits of the result are the number of places, which is that of the records.
 *
 * Refusal 6: the kind is not that of a record file; the body is not well formed for it; the list has fewer entries than the
 * body has records. The list then stays as it came. */
uint64_t malquindo_index_build(uint16_t kind, const uint8_t *body, size_t body_len, uint32_t *places, size_t places_len);

/* Extends an index that holds n places, after a record was appended to the body: writes the place of record n + 1 into the
 * entry behind them, places[n]. Every other entry stays as it came, and none is read. The lower 32 bits of the result are
 * n + 1.
 *
 * Refusal 6: the kind is not that of a record file; the body is not well formed for it; it has not n + 1 records; the list
 * has no entry places[n]. The list then stays as it came, and still holds n places: on a refusal the result does not tell
 * how many. */
uint64_t malquindo_index_extend(uint16_t kind, const uint8_t *body, size_t body_len, uint32_t *places, size_t places_len,
                                size_t n);

/* Reads the record of a number, counted from 1, by its place in a list alone. Here places_len is the number of places that
 * the list holds, and not the room that it has. The lower 32 bits of the result are the length of the record;
 * malquindo_index_record tells where it begins. Body and list are only read.
 *
 * Nothing else of the body or of the list is looked at: for a list that was not built from this body, the record is what the
 * length at the place says, and may have no byte or more than any record of a file.
 *
 * Refusal 6: the number is 0 or above places_len; the length field at the place, or the bytes that it counts, go past the
 * end of the body. */
uint64_t malquindo_index_read(const uint8_t *body, size_t body_len, const uint32_t *places, size_t places_len,
                              size_t number);

/* Reads a record as a stamp: a travel record by Table 11 of ICAO's LDS2 report, as EntryRecords and ExitRecords hold them.
 *
 * 0: the record is a stamp. The first MALQUINDO_STAMP_PLACES entries of the list are then two numbers for each field, in the
 * order of the fields below: where its value begins in the record, and how many bytes it has. Both are 0 for an optional field
 * that is absent. Entries behind them stay as they came.
 *
 * Else the upper 32 bits are the reason of the first fault, one of MALQUINDO_STAMP_WRONG_TAG, MALQUINDO_STAMP_WRONG_LENGTH
 * and MALQUINDO_STAMP_WRONG_CONTENT, and the lower 32 bits are its offset in the record: that of the first byte of the object
 * at fault (of its tag), or of the place where a missing one should stand. The first fault has the smallest offset; at one
 * offset a wrong tag comes before a wrong length, and that before a wrong content. These reasons are no refusals. The list
 * then stays as it came.
 *
 * Refusal 15, before all: the list has fewer than MALQUINDO_STAMP_PLACES entries. The list then stays as it came. The record
 * is only read; it may have any length. */
uint64_t malquindo_stamp_read(const uint8_t *record, size_t record_len, uint32_t *places, size_t places_len);

/* The fields of a stamp, in the order of Table 11. */
#define MALQUINDO_STAMP_STATE_COPY 0  /* 5F44, before 73: the same 3 letters as the State inside */
#define MALQUINDO_STAMP_STATE 1       /* 5F44: 3 letters */
#define MALQUINDO_STAMP_VISAS 2       /* 5F4C, optional: approvals, refusals and revocations of visas, 1 to 50 characters */
#define MALQUINDO_STAMP_DATE 3        /* 5F45: 8 digits */
#define MALQUINDO_STAMP_AUTHORITY 4   /* 5F4B: 1 to 10 characters */
#define MALQUINDO_STAMP_LOCATION 5    /* 5F46: 1 to 10 characters */
#define MALQUINDO_STAMP_INSPECTOR 6   /* 5F4A: 1 to 20 characters */
#define MALQUINDO_STAMP_RESULT 7      /* 5F4D, optional: 1 to 50 characters */
#define MALQUINDO_STAMP_MODE 8        /* 5F49, optional: 1 letter */
#define MALQUINDO_STAMP_DURATION 9    /* 5F48, optional: days in 1 or 2 bytes, the high byte first; any bytes are allowed */
#define MALQUINDO_STAMP_CONDITIONS 10 /* 5F4E, optional: 1 to 50 characters */
#define MALQUINDO_STAMP_SIGNATURE 11  /* 5F37, behind 73: 1 to 140 bytes */
#define MALQUINDO_STAMP_REFERENCE 12  /* 5F38: 1 byte, 01 to FE: the number of a travel certificate */

/* Why a record is no stamp. */
#define MALQUINDO_STAMP_WRONG_TAG 1     /* an object is missing, out of order or too many; or half a tag stands at the end */
#define MALQUINDO_STAMP_WRONG_LENGTH 2  /* none, past the end, not in its shortest form, or one that the table does not allow */
#define MALQUINDO_STAMP_WRONG_CONTENT 3 /* a byte that the table does not allow; or, at the State inside 73, not the copy */

/* The parts of a result. */

/* Of every function but malquindo_file and malquindo_stamp_read: the refusal, 0 for none. */
static inline unsigned malquindo_refusal(uint64_t result) { return (unsigned)(result >> 32); }
/* Of a command: the length of the answer. */
static inline size_t malquindo_length(uint64_t result) { return (size_t)(result >> 16 & 0xFFFF); }
/* Of a command: the status word. */
static inline unsigned malquindo_status(uint64_t result) { return (unsigned)(result & 0xFFFF); }
/* Of a cut: how many stores the whole command has. */
static inline size_t malquindo_stores(uint64_t result) { return (size_t)(result & 0xFFFFFFFF); }
/* Of a move: the length of the new image. */
static inline size_t malquindo_moved(uint64_t result) { return (size_t)(result & 0xFFFFFFFF); }
/* Of a file: where its body begins in the image. */
static inline size_t malquindo_file_place(uint64_t result) { return (size_t)(result >> 32); }
/* Of a file: the length of its body. */
static inline size_t malquindo_file_length(uint64_t result) { return (size_t)(result & 0xFFFFFFFF); }

/* Which body has a certificate. */
#define MALQUINDO_CERTIFICATE_MISSING 0
#define MALQUINDO_CERTIFICATE_CARD 1
#define MALQUINDO_CERTIFICATE_DESK 2
/* Of a certificate: which body has it, one of the three above. */
static inline unsigned malquindo_certificate_which(uint64_t result) { return (unsigned)(result >> 28 & 0xF); }
/* Of a certificate: where its first byte stands in that body. */
static inline size_t malquindo_certificate_place(uint64_t result) { return (size_t)(result >> 10 & 0x3FFFF); }
/* Of a certificate: its length. */
static inline size_t malquindo_certificate_length(uint64_t result) { return (size_t)(result & 0x3FF); }

/* Of building and extending an index: how many places the list then holds. */
static inline size_t malquindo_index_places(uint64_t result) { return (size_t)(result & 0xFFFFFFFF); }
/* Of reading by an index: the length of the record. */
static inline size_t malquindo_index_length(uint64_t result) { return (size_t)(result & 0xFFFFFFFF); }
/* Where the record of a number begins, once it was read by this list: 2 bytes behind its place. */
static inline const uint8_t *malquindo_index_record(const uint8_t *body, const uint32_t *places, size_t number)
{
    return body + places[number - 1] + 2;
}

/* Of malquindo_stamp_read: one of the three reasons above, or refusal 15; 0 where the record is a stamp. */
static inline unsigned malquindo_stamp_reason(uint64_t result) { return (unsigned)(result >> 32); }
/* Of malquindo_stamp_read, where the record is no stamp: where its first fault is. */
static inline size_t malquindo_stamp_offset(uint64_t result) { return (size_t)(result & 0xFFFFFFFF); }
/* Of a stamp: where the value of a field begins in the record, 0 where the field is absent. */
static inline size_t malquindo_stamp_place(const uint32_t *places, unsigned field) { return places[2 * field]; }
/* Of a stamp: how many bytes the value of a field has, 0 where the field is absent. */
static inline size_t malquindo_stamp_length(const uint32_t *places, unsigned field) { return places[2 * field + 1]; }

#ifdef __cplusplus
}
#endif

#endif
