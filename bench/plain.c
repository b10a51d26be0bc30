// A multiplexer in plain C, written from the rules alone and sharing no code with the program: it makes the same multiplex
// of the same plan, for sums and for times. It knows plans of the form that make_inputs.sh writes, and tables of one section.
//
//     plain PLAN OUT [SLOTS]
#include <fcntl.h>
#include <stdint.h>
#include <stdio.h>
#include <stdlib.h>
#include <string.h>
#include <sys/mman.h>
#include <sys/stat.h>
#include <unistd.h>

enum { PACKET = 188, INPUTS = 8, SERVICES = 16, STREAMS = 64, PIDS = 8192, SECTION = 1024, TABLE_PACKETS = 256 };

typedef struct { uint8_t bytes[PACKET]; uint64_t stamp; } Item;

typedef struct {
    char file[1900];
    uint64_t rate, offset;
    const uint8_t *data;
    uint64_t length, position, taken, last_stamp;
    int in_sync, is_closed, is_full, holds;
    int held_stream;
    Item held;
    int stream_of[PIDS];
} Input;

typedef struct {
    unsigned input, pid, out;
    uint64_t leak, level;
    Item *queue;
    unsigned head, count;
} Stream;

typedef struct {
    unsigned input, program, number, pmt;
    unsigned streams, stream[STREAMS];
    uint8_t pmt_section[SECTION], row[SECTION];
    unsigned pmt_length, row_length, pmt_pid;
} Service;

static uint64_t rate, period, version, capacity, stream_id, original_id, network_id;
static char network_name[1900], descriptors[1900];
static Input inputs[INPUTS];
static Service services[SERVICES];
static Stream streams[STREAMS];
static unsigned input_count, service_count, stream_count;
static uint8_t fast[TABLE_PACKETS][PACKET], slow[TABLE_PACKETS][PACKET];
static unsigned fast_count, slow_count;

static void fail(const char *why) { fprintf(stderr, "plain: %s\n", why); exit(1); }

static unsigned pid_of(const uint8_t *packet) { return (packet[1] & 31) << 8 | packet[2]; }

static uint64_t time_of(uint64_t place, uint64_t bits) { return (unsigned __int128)place * 216000000 / bits; }

// The plan: lines of keys and values, in lists.
static void read_plan(const char *name) {
    FILE *file = fopen(name, "r");
    char line[2048], key[64], text[1900];
    unsigned long long value;
    Input *input = 0;
    Service *service = 0;
    struct { unsigned pid, out; } row = { 0, 0 };
    if (!file) fail("the plan can't be opened");
    while (fgets(line, sizeof line, file)) {
        if (!strncmp(line, "[[input]]", 9)) { input = &inputs[input_count++]; continue; }
        if (!strncmp(line, "[[service]]", 11)) { service = &services[service_count++]; continue; }
        if (line[0] == '[' || line[0] == '\n') continue;
        if (sscanf(line, "%63s = \"%1899[^\"]\"", key, text) == 2) {
            if (!strcmp(key, "file")) strcpy(input->file, text);
            if (!strcmp(key, "network_name")) strcpy(network_name, text);
            if (!strcmp(key, "transport_descriptors")) strcpy(descriptors, text);
            continue;
        }
        if (sscanf(line, "%63s = %llu", key, &value) != 2) continue;
#define KEY(NAME, PLACE) if (!strcmp(key, NAME)) { PLACE = value; continue; }
        if (service) {
            KEY("input", service->input) KEY("program", service->program) KEY("service", service->number)
            KEY("pmt", service->pmt) KEY("pid", row.pid) KEY("out", row.out)
            if (!strcmp(key, "leak")) {
                int *found = &inputs[service->input].stream_of[row.pid];
                if (!*found) {
                    streams[stream_count] = (Stream){ .input = service->input, .pid = row.pid, .out = row.out, .leak = value };
                    *found = ++stream_count;
                }
                service->stream[service->streams++] = *found - 1;
            }
        } else if (input) {
            KEY("rate", input->rate) KEY("offset", input->offset)
        } else {
            KEY("rate", rate) KEY("period", period) KEY("version", version) KEY("queue", capacity)
            KEY("transport_stream_id", stream_id) KEY("original_network_id", original_id) KEY("network_id", network_id)
        }
    }
    fclose(file);
}

// Whether the five packets from here on begin with a sync byte.
static int syncs_at(const Input *input, uint64_t place) {
    for (int k = 0; k < 5; k++)
        if (place + PACKET * k >= input->length || input->data[place + PACKET * k] != 0x47) return 0;
    return 1;
}

// The next packet that framing finds, or none.
static const uint8_t *next_framed(Input *input, uint64_t *place) {
    for (;;) {
        if (!input->in_sync) {
            while (input->position < input->length && !syncs_at(input, input->position)) input->position++;
            if (input->position >= input->length) return 0;
            input->in_sync = 1;
        }
        uint64_t p = input->position;
        if (p + PACKET > input->length) return 0;
        if (input->data[p] == 0x47) { input->position += PACKET; *place = p; return input->data + p; }
        if (p + PACKET == input->length || input->data[p + PACKET] == 0x47) { input->position += PACKET; continue; }
        input->in_sync = 0;
        input->position = p + 1;
    }
}

static int has_pcr(const uint8_t *packet) { return packet[3] & 0x20 && packet[4] >= 1 && packet[5] & 0x10; }

static int is_well_formed(const uint8_t *packet) {
    int control = packet[3] >> 4 & 3;
    if (packet[0] != 0x47 || control == 0) return 0;
    if (control == 3 && packet[4] > 182) return 0;
    if (control == 2 && packet[4] != 183) return 0;
    return !has_pcr(packet) || packet[4] >= 7;
}

static uint32_t crc(const uint8_t *bytes, unsigned length) {
    uint32_t value = 0xFFFFFFFF;
    for (unsigned k = 0; k < length; k++) {
        value ^= (uint32_t)bytes[k] << 24;
        for (int bit = 0; bit < 8; bit++) value = value & 0x80000000 ? value << 1 ^ 0x04C11DB7 : value << 1;
    }
    return value;
}

// The first section on a PID from a place on that has this table_id and, but for `any`, this number; the place behind it.
static uint64_t find_section(Input *input, unsigned pid, int table_id, unsigned number, int any, uint64_t from, uint8_t *section) {
    unsigned have = 0;
    uint64_t place;
    input->position = from;
    input->in_sync = 1;
    for (const uint8_t *packet; (packet = next_framed(input, &place));) {
        if (!is_well_formed(packet) || pid_of(packet) != pid || !(packet[3] & 0x10) || packet[3] & 0xC0) continue;
        unsigned at = packet[3] & 0x20 ? 5 + packet[4] : 4;
        if (packet[1] & 0x40) { at += 1 + packet[at]; have = 0; } else if (!have) continue;
        while (at < PACKET && have < SECTION) section[have++] = packet[at++];
        if (have < 3) continue;
        unsigned length = (section[1] & 15) << 8 | section[2];
        if (length > 1021 || have < length + 3) continue;
        have = 0;
        if (section[0] != table_id || !(section[5] & 1) || crc(section, length + 3)) continue;
        if (section[6] || section[7]) fail("a table of more than one section");
        if (any || (section[3] << 8 | section[4]) == (int)number) return input->position;
    }
    fail("a table isn't there");
    return 0;
}

static unsigned section_end(const uint8_t *section) { return ((section[1] & 15) << 8 | section[2]) - 1; }

// The tables of a service's input: its PMT, and its row of the SDT.
static void acquire(Service *service) {
    Input *input = &inputs[service->input];
    uint8_t pat[SECTION], sdt[SECTION];
    while (input->position < input->length && !syncs_at(input, input->position)) input->position++;
    uint64_t begin = input->position, behind = find_section(input, 0x0000, 0x00, 0, 1, begin, pat);
    for (unsigned at = 8; at < section_end(pat); at += 4)
        if ((pat[at] << 8 | pat[at + 1]) == (int)service->program && !service->pmt_pid) service->pmt_pid = (pat[at + 2] & 31) << 8 | pat[at + 3];
    if (!service->pmt_pid) fail("a program isn't there");
    find_section(input, service->pmt_pid, 0x02, service->program, 0, behind, service->pmt_section);
    find_section(input, 0x0011, 0x42, 0, 1, begin, sdt);
    for (unsigned at = 11, next; at < section_end(sdt); at = next) {
        next = at + 5 + ((sdt[at + 3] & 15) << 8 | sdt[at + 4]);
        if ((sdt[at] << 8 | sdt[at + 1]) == (int)service->program && !service->row_length)
            memcpy(service->row, sdt + at, service->row_length = next - at);
    }
    if (!service->row_length) fail("a row of the SDT isn't there");
    input->position = input->in_sync = 0;
}

// Sections are written byte by byte behind one another.
static uint8_t written[SECTION];
static unsigned size;
static void put8(unsigned value) { written[size++] = value; }
static void put16(unsigned value) { put8(value >> 8); put8(value); }

static void begin_section(unsigned table_id, unsigned number, unsigned section, unsigned last) {
    size = 0;
    put8(table_id);
    put16(0);
    put16(number);
    put8(0xC1 | version << 1);
    put8(section);
    put8(last);
}

// Ends a section with its length and CRC, and puts it into packets of its own.
static void end_section(unsigned pid, unsigned one_bit, uint8_t (*list)[PACKET], unsigned *count) {
    uint8_t pointer[SECTION + 1] = { 0 };
    unsigned length = size + 4 - 3;
    written[1] = 0xB0 | one_bit << 6 | length >> 8;
    written[2] = length;
    uint32_t sum = crc(written, size);
    put16(sum >> 16);
    put16(sum);
    memcpy(pointer + 1, written, size);
    for (unsigned done = 0; done < size + 1; done += 184) {
        uint8_t *packet = list[(*count)++];
        unsigned part = size + 1 - done < 184 ? size + 1 - done : 184;
        memset(packet, 0xFF, PACKET);
        packet[0] = 0x47;
        packet[1] = (done ? 0 : 0x40) | pid >> 8;
        packet[2] = pid;
        packet[3] = 0x10;
        memcpy(packet + 4, pointer + done, part);
    }
}

static unsigned mapped(const Service *service, unsigned pid) {
    for (unsigned k = 0; k < service->streams; k++)
        if (streams[service->stream[k]].pid == pid) return streams[service->stream[k]].out;
    if (pid != 0x1FFF) fail("a PID that no row names");
    return pid;
}

static void write_pmt(const Service *service) {
    const uint8_t *pmt = service->pmt_section;
    unsigned at = 12 + ((pmt[10] & 15) << 8 | pmt[11]);
    begin_section(0x02, service->number, 0, 0);
    put16(0xE000 | mapped(service, (pmt[8] & 31) << 8 | pmt[9]));
    for (unsigned k = 10; k < at; k++) put8(k == 10 ? pmt[k] | 0xF0 : pmt[k]);
    for (unsigned next; at < section_end(pmt); at = next) {
        next = at + 5 + ((pmt[at + 3] & 15) << 8 | pmt[at + 4]);
        put8(pmt[at]);
        put16(0xE000 | mapped(service, (pmt[at + 1] & 31) << 8 | pmt[at + 2]));
        for (unsigned k = at + 3; k < next; k++) put8(k == at + 3 ? pmt[k] | 0xF0 : pmt[k]);
    }
    end_section(service->pmt, 0, fast, &fast_count);
}

static unsigned rows_fit(unsigned from) {
    unsigned room = 1021 - 12;
    while (from < service_count && services[from].row_length <= room) room -= services[from++].row_length;
    return from;
}

static void write_sdt(void) {
    unsigned last = 0, section = 0;
    for (unsigned row = rows_fit(0); row < service_count; row = rows_fit(row)) last++;
    for (unsigned row = 0; row < service_count; section++) {
        begin_section(0x42, stream_id, section, last);
        put16(original_id);
        put8(0xFF);
        for (unsigned end = rows_fit(row); row < end; row++) {
            const Service *service = &services[row];
            put16(service->number);
            put8(0xFC);
            put8(service->row[3] & 0xEF);
            for (unsigned k = 4; k < service->row_length; k++) put8(service->row[k]);
        }
        end_section(0x0011, 1, slow, &slow_count);
    }
}

static unsigned type_of(const Service *service) {
    for (unsigned at = 5; at < service->row_length; at += 2 + service->row[at + 1])
        if (service->row[at] == 0x48) return service->row[at + 2];
    fail("a service without a type");
    return 0;
}

static void write_tables(void) {
    begin_section(0x00, stream_id, 0, 0);
    put16(0);
    put16(0xE010);
    for (unsigned k = 0; k < service_count; k++) { put16(services[k].number); put16(0xE000 | services[k].pmt); }
    end_section(0x0000, 0, fast, &fast_count);
    for (unsigned k = 0; k < service_count; k++) write_pmt(&services[k]);
    write_sdt();
    unsigned name = strlen(network_name);
    begin_section(0x40, network_id, 0, 0);
    put16(0xF000 | (2 + name));
    put8(0x40);
    put8(name);
    for (unsigned k = 0; k < name; k++) put8(network_name[k]);
    unsigned raw = strlen(descriptors) / 2;
    put16(0xF000 | (6 + 2 + 3 * service_count + raw));
    put16(stream_id);
    put16(original_id);
    put16(0xF000 | (2 + 3 * service_count + raw));
    put8(0x41);
    put8(3 * service_count);
    for (unsigned k = 0; k < service_count; k++) { put16(services[k].number); put8(type_of(&services[k])); }
    for (unsigned k = 0, byte; k < raw; k++) { sscanf(descriptors + 2 * k, "%2x", &byte); put8(byte); }
    end_section(0x0010, 1, slow, &slow_count);
}

// Takes packets of an input until it is ready: closed, ahead of the time, or its packet meets a full queue.
static void make_ready(Input *input, uint64_t now) {
    while (!input->is_closed && !input->is_full && !(input->taken && input->last_stamp > now)) {
        uint64_t place;
        const uint8_t *packet;
        while (!input->holds) {
            if (!(packet = next_framed(input, &place))) break;
            if (!is_well_formed(packet) || !input->stream_of[pid_of(packet)]) continue;
            memcpy(input->held.bytes, packet, PACKET);
            input->held.stamp = input->offset + time_of(place + 10, input->rate);
            input->held_stream = input->stream_of[pid_of(packet)] - 1;
            input->holds = 1;
        }
        Stream *stream = &streams[input->held_stream];
        if (!input->holds) input->is_closed = 1;
        else if (stream->count == capacity) input->is_full = 1;
        else {
            stream->queue[(stream->head + stream->count++) % capacity] = input->held;
            input->last_stamp = input->held.stamp;
            input->taken++;
            input->holds = 0;
        }
    }
}

// The level after a packet's bytes, and whether no byte brought it above 512 bytes.
static int fits(const Stream *stream, uint64_t *level) {
    *level = stream->level;
    for (int byte = 0; byte < PACKET; byte++) {
        *level = (*level > stream->leak ? *level - stream->leak : 0) + rate;
        if (*level > 512 * rate) return 0;
    }
    return 1;
}

// The stream whose head goes out: of those that may, that with the least time, and of these that with the least PID.
static Stream *choose(uint64_t now, uint64_t *level) {
    Stream *best = 0;
    for (Stream *stream = streams; stream < streams + stream_count; stream++) {
        uint64_t stamp, least, filled;
        if (!stream->count || (stamp = stream->queue[stream->head].stamp) > now) continue;
        if (best && (least = best->queue[best->head].stamp, stamp > least || (stamp == least && stream->out > best->out))) continue;
        if (!fits(stream, &filled)) continue;
        best = stream;
        *level = filled;
    }
    return best;
}

static void rewrite(uint8_t *packet, unsigned pid, uint64_t delay) {
    packet[1] = (packet[1] & 0xE0) | pid >> 8;
    packet[2] = pid;
    if (!has_pcr(packet)) return;
    uint64_t base = (uint64_t)packet[6] << 25 | packet[7] << 17 | packet[8] << 9 | packet[9] << 1 | packet[10] >> 7;
    uint64_t value = (base * 300 + ((packet[10] & 1) << 8 | packet[11]) + delay) % 2576980377600;
    base = value / 300;
    packet[6] = base >> 25;
    packet[7] = base >> 17;
    packet[8] = base >> 9;
    packet[9] = base >> 1;
    packet[10] = (packet[10] & 0x7E) | (base & 1) << 7 | value % 300 >> 8;
    packet[11] = value % 300;
}

int main(int count, char **words) {
    static uint8_t null[PACKET], counters[PIDS];
    uint64_t slot = 0, limit = 1ull << 40, tables = 0, elementary = 0;
    if (count < 3) fail("PLAN OUT [SLOTS]");
    if (count > 3) limit = strtoull(words[3], 0, 10);
    read_plan(words[1]);
    for (Input *input = inputs; input < inputs + input_count; input++) {
        struct stat about;
        int file = open(input->file, O_RDONLY);
        if (file < 0 || fstat(file, &about)) fail("an input can't be opened");
        input->length = about.st_size;
        input->data = mmap(0, about.st_size, PROT_READ, MAP_PRIVATE, file, 0);
    }
    for (unsigned k = 0; k < service_count; k++) acquire(&services[k]);
    for (unsigned k = 0; k < stream_count; k++) streams[k].queue = calloc(capacity, sizeof(Item));
    write_tables();
    memset(null, 0xFF, PACKET);
    memcpy(null, "\x47\x1F\xFF\x10", 4);
    FILE *out = fopen(words[2], "wb");
    if (!out) fail("the output can't be made");
    setvbuf(out, 0, _IOFBF, 1 << 16);
    uint64_t gap = (rate + 999999) / 1000000;
    if (gap < 2) gap = 2;
    for (; slot < limit; slot++) {
        uint64_t now = time_of(188 * slot + 10, rate), level = 0, place = slot % period;
        uint8_t packet[PACKET];
        Stream *sent = 0;
        int is_over = 1;
        for (unsigned k = 0; k < input_count; k++) { make_ready(&inputs[k], now); is_over &= inputs[k].is_closed; }
        for (unsigned k = 0; k < stream_count; k++) is_over &= !streams[k].count;
        if (is_over) break;
        if (place % gap == 0 && place / gap <= fast_count) {
            memcpy(packet, place / gap < fast_count ? fast[place / gap] : slow[slot / period % slow_count], PACKET);
            packet[3] |= counters[pid_of(packet)]++ & 15;
            tables++;
        } else if ((sent = choose(now, &level))) {
            Item *item = &sent->queue[sent->head];
            memcpy(packet, item->bytes, PACKET);
            rewrite(packet, sent->out, now - item->stamp);
            sent->head = (sent->head + 1) % capacity;
            sent->count--;
            elementary++;
        } else {
            memcpy(packet, null, PACKET);
        }
        for (Stream *stream = streams; stream < streams + stream_count; stream++)
            stream->level = stream == sent ? level : stream->level > 188 * stream->leak ? stream->level - 188 * stream->leak : 0;
        for (unsigned k = 0; k < input_count; k++) inputs[k].is_full = 0;
        fwrite(packet, 1, PACKET, out);
    }
    if (fclose(out)) fail("the output can't be written");
    printf("slots %llu tables %llu elementary %llu null %llu\n", (unsigned long long)slot, (unsigned long long)tables,
           (unsigned long long)elementary, (unsigned long long)(slot - tables - elementary));
    return 0;
}
