// libcoap, by what its library exports, for bench/main.rs: parsing into one prepared PDU, and writing into a new one.
#include <coap3/coap.h>
#include <string.h>

enum { HEAD = 11, MOST_OPTIONS = 128, MOST = 70000 };

static coap_pdu_t *prepared;

// A PDU to parse into, with room for the largest message, and silence.
void libcoap_prepare(void)
{
    coap_set_log_level(LOG_EMERG);
    prepared = coap_pdu_init(COAP_MESSAGE_CON, COAP_EMPTY_CODE, 0, MOST);
}

int libcoap_parse(const uint8_t *datagram, size_t len)
{
    return coap_pdu_parse(COAP_PROTO_UDP, datagram, len, prepared);
}

// The flat form of a PDU, whose header stands before its token.
static void flat_of(const coap_pdu_t *pdu, size_t len, uint32_t *out)
{
    coap_bin_const_t token = coap_pdu_get_token(pdu);
    const uint8_t *payload, *first = token.s - 4;
    size_t sent = 0, start = len;
    coap_opt_iterator_t options;
    coap_opt_t *option;
    if (coap_get_data(pdu, &sent, &payload))
        start = payload - first;
    const uint32_t head[HEAD] = { 1, coap_pdu_get_type(pdu), coap_pdu_get_code(pdu), coap_pdu_get_mid(pdu), 0, 4, token.length,
                                  0, start, sent, 0 };
    for (int i = 0; i < HEAD; i++)
        out[i] = head[i];
    coap_option_iterator_init(pdu, &options, COAP_OPT_ALL);
    while ((option = coap_option_next(&options))) {
        uint32_t *record = out + HEAD + 4 * out[10]++;
        record[0] = options.number;
        record[1] = 0;
        record[2] = coap_opt_value(option) - first;
        record[3] = coap_opt_length(option);
    }
}

// The flat form of what was parsed last, from so many bytes.
void libcoap_parsed(size_t len, uint32_t *out)
{
    flat_of(prepared, len, out);
}

// A new PDU with all that a flat form over one store has; NULL where a call for it fails.
static coap_pdu_t *written(const uint32_t *packet, const uint8_t *store)
{
    coap_pdu_t *pdu = coap_pdu_init(packet[1], packet[2], packet[3], MOST);
    if (!pdu)
        return NULL;
    int good = packet[6] == 0 || coap_add_token(pdu, packet[6], store + packet[5]);
    for (const uint32_t *record = packet + HEAD; good && record < packet + HEAD + 4 * packet[10]; record += 4)
        good = coap_add_option(pdu, record[0], record[3], store + record[2]) > 0;
    if (good && packet[9] > 0)
        good = coap_add_data(pdu, packet[9], store + packet[8]);
    if (good)
        return pdu;
    coap_delete_pdu(pdu);
    return NULL;
}

// Writes, and frees what was written; 1, or 0 where it fails.
int libcoap_write(const uint32_t *packet, const uint8_t *store)
{
    coap_pdu_t *pdu = written(packet, store);
    if (!pdu)
        return 0;
    coap_delete_pdu(pdu);
    return 1;
}

// Whether what is written has this flat form and the bytes of the message that this is of, but for the header.
int libcoap_agrees(const uint32_t *packet, const uint8_t *datagram, size_t len)
{
    uint32_t again[HEAD + 4 * MOST_OPTIONS];
    coap_pdu_t *pdu = written(packet, datagram);
    if (!pdu)
        return 0;
    flat_of(pdu, len, again);
    int same = memcmp(again, packet, (HEAD + 4 * packet[10]) * sizeof *packet) == 0 &&
               memcmp(coap_pdu_get_token(pdu).s, datagram + 4, len - 4) == 0;
    coap_delete_pdu(pdu);
    return same;
}
