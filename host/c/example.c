/* Selects the travel application of a card, appends a record and reads it back; then moves the card to rooms of 100 bytes
 * and reads the record there. Appends a certificate there too, in two links, and asks for certificates by number, of that card
 * and of a desk that has one more. Then keeps an index while a second record is appended, and reads that record by its place. Then
 * reads a stamp, and says why another record is none. Last reads rights from the extensions of three certificates and opens
 * with them, and shows what is opened after a refusal. */
#include <stdio.h>
#include <string.h>
#include "malquindo.h"

static uint8_t image[3 * 46] = {
    [0] = 40, [4] = 0x01, [5] = 0x01,    /* 0101 EntryRecords, a body of 40 bytes, no records */
    [46] = 40, [50] = 0x02, [51] = 0x01, /* 0102 ExitRecords */
    [92] = 40, [96] = 0x1A, [97] = 0x01, /* 011A travel certificates */
};
static uint8_t larger[3 * 106];
static uint8_t session[MALQUINDO_SESSION_LEN];
static uint8_t response[MALQUINDO_RESPONSE_LEN];

static void print(const uint8_t *bytes, size_t length)
{
    for (size_t i = 0; i < length; i++)
        printf("%02X", bytes[i]);
    printf("\n");
}

static int run(uint8_t *card, size_t card_len, const uint8_t *command, size_t command_len)
{
    uint64_t result = malquindo_command(card, card_len, session, sizeof session,
                                        command, command_len, response, sizeof response);
    print(response, malquindo_length(result));
    return malquindo_status(result) != 0x9000;
}

/* Sends a link but the last: a part of a command's data. It is answered without data, and the session keeps the part. */
static int link_of(uint8_t *card, size_t card_len, const uint8_t *command, size_t command_len)
{
    uint64_t result = malquindo_command(card, card_len, session, sizeof session,
                                        command, command_len, response, sizeof response);
    return malquindo_status(result) != 0x9000;
}

static int move_card(void)
{
    static const uint8_t rooms[] = {100, 0, 0, 0, 0x01, 0x01, 100, 0, 0, 0, 0x02, 0x01, 100, 0, 0, 0, 0x1A, 0x01};
    uint64_t result = malquindo_move(image, sizeof image, rooms, sizeof rooms, larger, sizeof larger);
    return malquindo_refusal(result) != 0 || malquindo_moved(result) != sizeof larger;
}

/* Says which body has the certificate that a stamp with this reference names, and its bytes. */
static int certificate(uint8_t reference)
{
    static const uint8_t desk[] = {2, 0, 3, 0, 0x7F, 0x21, 0xC1, 3, 0, 0x7F, 0x21, 0xC2}; /* two certificates of 3 bytes */
    uint64_t file = malquindo_file(larger, sizeof larger, 0x011A);
    if (file == 0) /* no such file, or no card */
        return 1;
    const uint8_t *card = larger + malquindo_file_place(file);
    uint64_t result = malquindo_certificate(card, malquindo_file_length(file), desk, sizeof desk, reference);
    size_t place = malquindo_certificate_place(result), length = malquindo_certificate_length(result);
    if (malquindo_refusal(result) != 0)
        return 1;
    switch (malquindo_certificate_which(result)) {
    case MALQUINDO_CERTIFICATE_CARD:
        printf("certificate %u, card: ", reference);
        print(card + place, length);
        return 0;
    case MALQUINDO_CERTIFICATE_DESK:
        printf("certificate %u, desk: ", reference);
        print(desk + place, length);
        return 0;
    default:
        printf("certificate %u is missing\n", reference);
        return 0;
    }
}

/* Builds an index of the EntryRecords, appends a record, extends the index, and reads the record by it and by READ RECORD. */
static int indexed(void)
{
    static const uint8_t append[] = {0x00, 0xE2, 0x00, 0x08, 0x06, 0x5F, 0x44, 0x03, 0x46, 0x52, 0x41};
    static const uint8_t read[] = {0x00, 0xB2, 0x02, 0x0C, 0x00, 0x00, 0x00}; /* record 2 alone */
    static uint32_t places[MALQUINDO_RECORDS];
    uint64_t file = malquindo_file(larger, sizeof larger, 0x0101);
    if (file == 0)
        return 1;
    const uint8_t *body = larger + malquindo_file_place(file); /* commands move no body */
    size_t body_len = malquindo_file_length(file);
    uint64_t result = malquindo_index_build(0x0101, body, body_len, places, MALQUINDO_RECORDS);
    if (malquindo_refusal(result) != 0 || run(larger, sizeof larger, append, sizeof append))
        return 1;
    size_t n = malquindo_index_places(result);
    result = malquindo_index_extend(0x0101, body, body_len, places, MALQUINDO_RECORDS, n);
    if (malquindo_refusal(result) != 0)
        return 1;
    n = malquindo_index_places(result); /* what the list holds, not the room that it has */
    result = malquindo_index_read(body, body_len, places, n, n);
    if (malquindo_refusal(result) != 0)
        return 1;
    const uint8_t *record = malquindo_index_record(body, places, n);
    size_t length = malquindo_index_length(result);
    printf("record %u, by the index: ", (unsigned)n);
    print(record, length);
    if (run(larger, sizeof larger, read, sizeof read))
        return 1;
    return memcmp(response, record, length) != 0 || response[length] != 0x90; /* the status word stands behind the record */
}

/* Says two fields of a record that is a stamp, or why it is none. */
static int stamp(const uint8_t *record, size_t record_len)
{
    uint32_t places[MALQUINDO_STAMP_PLACES];
    uint64_t result = malquindo_stamp_read(record, record_len, places, MALQUINDO_STAMP_PLACES);
    unsigned at = (unsigned)malquindo_stamp_offset(result);
    switch (malquindo_stamp_reason(result)) {
    case 0: /* a stamp */
        break;
    case MALQUINDO_STAMP_WRONG_TAG:
        printf("no stamp: a wrong tag at %u\n", at);
        return 0;
    case MALQUINDO_STAMP_WRONG_LENGTH:
        printf("no stamp: a wrong length at %u\n", at);
        return 0;
    case MALQUINDO_STAMP_WRONG_CONTENT:
        printf("no stamp: a wrong value at %u\n", at);
        return 0;
    default:
        return 1;
    }
    printf("stamp of %.*s, certificate %u, ", (int)malquindo_stamp_length(places, MALQUINDO_STAMP_STATE),
           (const char *)record + malquindo_stamp_place(places, MALQUINDO_STAMP_STATE),
           record[malquindo_stamp_place(places, MALQUINDO_STAMP_REFERENCE)]);
    /* an optional field that is absent has no byte */
    puts(malquindo_stamp_length(places, MALQUINDO_STAMP_MODE) == 0 ? "no mode" : "a mode");
    return 0;
}

/* Reads a stamp, and the same record when its first State is another. */
static int stamps(void)
{
    static uint8_t record[] =
        "\x5F\x44\x03" "UTO" "\x73\x1D" "\x5F\x44\x03" "UTO" "\x5F\x45\x08" "20261116"
        "\x5F\x4B\x01" "A" "\x5F\x46\x01" "L" "\x5F\x4A\x01" "I" "\x5F\x37\x01\xA5" "\x5F\x38\x01\x02";
    size_t length = sizeof record - 1; /* without the 0 of C */
    if (stamp(record, length))
        return 1;
    record[3] = 'A';
    return stamp(record, length);
}

/* Opens a session with the rights that three certificates with this run of extensions give, and shows its rights: the flags,
 * the travel byte and the visa byte. */
static int chain(const uint8_t *run, size_t run_len)
{
    uint8_t rights[MALQUINDO_RIGHTS_LEN];
    uint64_t result = malquindo_rights(run, run_len, run, run_len, run, run_len, rights, sizeof rights);
    /* A caller would stop at a refusal; this goes on to show that the session then has no rights. */
    if (malquindo_open(rights, sizeof rights, session, sizeof session) != 0)
        return 1;
    switch (malquindo_refusal(result)) {
    case 0:
        printf("rights: ");
        break;
    case 7:
        printf("a bad extension: ");
        break;
    case 8:
        printf("an extension twice: ");
        break;
    default:
        return 1;
    }
    print(session, 3);
    return 0;
}

/* Certificates with two extensions; with the second one cut short; with the first one twice. After a refusal the session that
 * is opened has no rights. */
static int chains(void)
{
    static const uint8_t run[] = {
        0x73, 0x0D, 0x06, 0x08, 0x67, 0x81, 0x08, 0x01, 0x01, 0x09, 0x01, 0x03, 0x53, 0x01, 0x0F, /* travel: all rights */
        0x73, 0x0D, 0x06, 0x08, 0x67, 0x81, 0x08, 0x01, 0x01, 0x09, 0x02, 0x03, 0x53, 0x01, 0x01, /* visa: read records */
    };
    uint8_t twice[sizeof run];
    memcpy(twice, run, 15);
    memcpy(twice + 15, run, 15);
    return chain(run, sizeof run) || chain(run, sizeof run - 1) || chain(twice, sizeof twice);
}

int main(void)
{
    static const uint8_t select[] = {0x00, 0xA4, 0x04, 0x0C, 0x07, 0xA0, 0x00, 0x00, 0x02, 0x47, 0x20, 0x01};
    static const uint8_t append[] = {0x00, 0xE2, 0x00, 0x08, 0x06, 0x5F, 0x44, 0x03, 0x55, 0x53, 0x41};
    static const uint8_t read[] = {0x00, 0xB2, 0x01, 0x05, 0x00, 0x00, 0x00};
    static const uint8_t first_link[] = {0x10, 0xE2, 0x00, 0xD0, 0x02, 0x7F, 0x21}; /* short id 1A; CLA 10: more will come */
    static const uint8_t last_link[] = {0x00, 0xE2, 0x00, 0xD0, 0x01, 0xC1};
    uint8_t rights[MALQUINDO_RIGHTS_LEN];
    for (size_t i = 0; i < sizeof rights; i++)
        rights[i] = 0xFF;
    if (malquindo_session_len() != sizeof session
        || malquindo_open(rights, sizeof rights, session, sizeof session) != 0)
        return 1;
    return run(image, sizeof image, select, sizeof select) || run(image, sizeof image, append, sizeof append)
        || run(image, sizeof image, read, sizeof read) || move_card() || run(larger, sizeof larger, read, sizeof read)
        || link_of(larger, sizeof larger, first_link, sizeof first_link)
        || run(larger, sizeof larger, last_link, sizeof last_link)
        || certificate(1) || certificate(2) || certificate(3) || indexed() || stamps() || chains();
}
