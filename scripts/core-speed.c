/* The events of crates/speed_calls through a member written plainly in C: what core-speed compares with.
   Words: how many entries are learned before, how many events come. */
#include <stdint.h>
#include <stdio.h>
#include <stdlib.h>
#include <string.h>

enum { POSITIONS = 1000000, WINDOW = 64, MEMBERS = 3, COLUMNS = 15, LENGTH = 100 };
enum kind { ACCEPT, VOTE, LEARNED };

struct entry { uint32_t owners; uint8_t origin; uint64_t number; size_t length; unsigned char bytes[]; };
struct view { uint8_t origin; uint64_t number; const unsigned char *bytes; size_t length; };
struct slot { uint64_t promised, ballot; struct entry *entry; };
struct cell { uint32_t position; uint64_t ballot; };
struct sends { int many; enum kind kind; uint64_t ballot; uint32_t position; struct entry *entry; };

static struct cell cells[WINDOW][COLUMNS];
static struct entry **learned;
static size_t learned_room;
static struct slot *slots;
static size_t slots_count, slots_room;
static uint32_t front, first;
static uint64_t floor_ballot;

static void *grown(void *old, size_t size) {
    void *new = realloc(old, size);
    if (!new) exit(1);
    return new;
}

static struct entry *copied(const struct view *view) {
    struct entry *entry = grown(NULL, sizeof *entry + view->length);
    entry->owners = 1;
    entry->origin = view->origin;
    entry->number = view->number;
    entry->length = view->length;
    memcpy(entry->bytes, view->bytes, view->length);
    return entry;
}

static struct entry *shared(struct entry *entry) { entry->owners++; return entry; }
static void dropped(struct entry *entry) { if (entry && --entry->owners == 0) free(entry); }

static int is_open(uint32_t position) {
    return position >= front && position - front < WINDOW && position < POSITIONS &&
        (position >= learned_room || !learned[position]);
}

static void learn(uint32_t position, struct entry *entry) {
    if (position >= learned_room) {
        size_t room = learned_room ? learned_room * 2 : 64;
        while (room <= position) room *= 2;
        learned = grown(learned, room * sizeof *learned);
        memset(learned + learned_room, 0, (room - learned_room) * sizeof *learned);
        learned_room = room;
    }
    learned[position] = entry;
    while (front < POSITIONS && front < learned_room && learned[front]) front++;
}

static struct sends accept_request(uint64_t ballot, uint32_t position, const struct view *view) {
    struct sends sends = { 0, VOTE, ballot, position, NULL };
    size_t place = position - first;
    if (place >= slots_count) {
        if (place >= slots_room) {
            slots_room = slots_room ? slots_room * 2 : 64;
            slots = grown(slots, slots_room * sizeof *slots);
        }
        memset(slots + slots_count, 0, (place + 1 - slots_count) * sizeof *slots);
        slots_count = place + 1;
    }
    if (ballot < floor_ballot || ballot < slots[place].promised) return sends;
    struct entry *entry = copied(view);
    dropped(slots[place].entry);
    slots[place] = (struct slot){ ballot, ballot, entry };
    sends.many = MEMBERS;
    sends.entry = shared(entry);
    return sends;
}

static void vote(uint8_t sender, uint64_t ballot, uint32_t position, const struct view *view) {
    if (!is_open(position)) return;
    struct cell *row = cells[position % WINDOW];
    if (row[sender].position != position || row[sender].ballot < ballot) row[sender] = (struct cell){ position, ballot };
    int votes = 0;
    for (int member = 0; member < MEMBERS; member++) votes += row[member].position == position && row[member].ballot == ballot;
    if (MEMBERS < 2 * votes) learn(position, copied(view));
}

static void told(uint32_t position, const struct view *view) {
    if (is_open(position)) learn(position, copied(view));
}

static void spell(unsigned char *bytes, uint32_t position) {
    memset(bytes, 0, LENGTH);
    bytes[0] = 1;
    for (int i = 0; i < 4; i++) bytes[6 + i] = position >> (24 - 8 * i);
}

static struct view read_entry(const unsigned char *bytes) {
    struct view view = { bytes[1], 0, bytes, LENGTH };
    for (int i = 2; i < 10; i++) view.number = view.number << 8 | bytes[i];
    return view;
}

int main(int argc, char **argv) {
    if (argc != 3) return 2;
    uint32_t before = strtoul(argv[1], NULL, 10), events = strtoul(argv[2], NULL, 10);
    unsigned char bytes[LENGTH];
    for (uint32_t position = 0; position < before; position++) {
        spell(bytes, position);
        struct view view = read_entry(bytes);
        learn(position, copied(&view));
    }
    first = before;
    for (uint32_t number = 0; number < events; number++) {
        uint32_t position = before + number / 3;
        spell(bytes, position);
        struct view view = read_entry(bytes);
        switch (number % 3) {
        case ACCEPT: dropped(accept_request(256, position, &view).entry); break;
        case VOTE: vote(1, 256, position, &view); break;
        default: told(position, &view);
        }
    }
    printf("front %u\n", front);
    return 0;
}
