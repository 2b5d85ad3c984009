/* The services of a stream: reads packets, collects one PID, opens each section, and prints what the SDT says of the actual stream's services.
 *
 *     services FILE [PID]         PID in hexadecimal; without one it is 0011, on which SDTs are broadcast
 *
 * The collector hands out sections that are accepted, and no other; of those that it rejects their bytes are told. It ends when all sections of the table
 * have come, or with the stream.
 */
#include <stdio.h>
#include <stdlib.h>

#include "lohitunga.h"

/* A name as it is broadcast; bytes that are no ASCII characters by their values, since character sets are not read. */
static void print_name(const char *what, const uint8_t *descriptor, lohitunga_part part) {
    printf(" %s '", what);
    for (size_t i = 0; i < part.size; i++) {
        uint8_t byte = descriptor[part.start + i];
        if (byte < ' ' || byte > '~')
            printf("\\x%02X", byte);
        else
            putchar(byte);
    }
    putchar('\'');
}

/* The first service descriptor of a service's loop. */
static void print_service(const uint8_t *section, size_t size, lohitunga_part loop) {
    lohitunga_descriptor_step step = lohitunga_next_descriptor(section, size, loop);
    while (step.found && step.tag != LOHITUNGA_TAG_SERVICE)
        step = lohitunga_next_descriptor(section, size, step.rest);
    if (!step.found) {
        printf(" without a service descriptor\n");
        return;
    }
    const uint8_t *descriptor = section + step.descriptor.start;
    lohitunga_service_answer answer = lohitunga_read_service(descriptor, step.descriptor.size);
    if (answer.number) {
        printf(" with a service descriptor that is refused: %u\n", answer.number);
        return;
    }
    printf(" type %u", answer.service.service_type);
    print_name("provider", descriptor, answer.service.service_provider_name);
    print_name("name", descriptor, answer.service.service_name);
    putchar('\n');
}

static void print_services(const uint8_t *section, size_t size, const lohitunga_open_answer *opened) {
    const lohitunga_head *head = &opened->head;
    printf("transport_stream_id %u original_network_id %u version %u section %u of %u\n", head->transport_stream_id, head->original_network_id,
           head->version_number, head->section_number, head->last_section_number);
    lohitunga_entry_step entry = lohitunga_next_entry(section, size, opened->entries);
    for (; entry.found; entry = lohitunga_next_entry(section, size, entry.rest)) {
        printf("service %u", entry.service_id);
        print_service(section, size, entry.descriptors);
    }
}

/* Prints a section that was handed out and has not been printed. Is the table complete? */
static int print_section(lohitunga_roll *roll, const uint8_t *section, size_t size) {
    lohitunga_open_answer opened = lohitunga_open(section, size);
    if (opened.head.table_id != LOHITUNGA_TABLE_SDT_ACTUAL)
        return 0;
    lohitunga_roll before = *roll;
    lohitunga_roll_answer answer = lohitunga_roll_take(roll, section, size);
    if (answer.number)
        return 0; /* not current, or of another stream */
    int same = before.begun && before.version == roll->version && before.last == roll->last;
    if (!same || !before.came[opened.head.section_number])
        print_services(section, size, &opened);
    if (answer.complete)
        printf("complete\n");
    return answer.complete;
}

int main(int argc, char **argv) {
    if (argc < 2 || argc > 3) {
        fprintf(stderr, "usage: services FILE [PID]\n");
        return 2;
    }
    FILE *stream = fopen(argv[1], "rb");
    if (!stream) {
        perror(argv[1]);
        return 1;
    }
    static uint8_t hold[LOHITUNGA_HOLD], out[LOHITUNGA_OUT];
    uint8_t packet[LOHITUNGA_PACKET];
    lohitunga_record record = lohitunga_fresh(argc < 3 ? LOHITUNGA_PID_SDT_BAT : (uint16_t)strtoul(argv[2], NULL, 16));
    lohitunga_roll roll = lohitunga_roll_empty();
    size_t read;
    while ((read = fread(packet, 1, sizeof packet, stream)) > 0) {
        uint32_t rejected = record.rejected;
        lohitunga_collect_answer answer = lohitunga_collect(&record, hold, sizeof hold, out, sizeof out, packet, read);
        if (record.rejected != rejected)
            printf("%u bytes are rejected, the last section with %u\n", record.rejected - rejected, record.rejection);
        /* what is not taken hands out nothing: `size` is then 0 */
        lohitunga_part all = {0, answer.size};
        lohitunga_section_step step = lohitunga_next_section(out, sizeof out, all);
        for (; step.found; step = lohitunga_next_section(out, sizeof out, step.rest))
            if (print_section(&roll, out + step.section.start, step.section.size))
                return 0;
    }
    if (!roll.begun) {
        printf("no service table\n");
        return 0;
    }
    printf("the next section that is missing: %u\n", lohitunga_roll_ask(&roll).missing);
    return 0;
}
