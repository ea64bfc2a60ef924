/* A grading program's use of the library: reads panels, checks claims about one, prints the verdicts and the calls, writes a claim, and runs
 * panels for some steps and to their end. The sample and its claim are document 01's, with the three class lines of document 02. */
#include <inttypes.h>
#include <stdio.h>
#include <string.h>

#include "hudzmoke.h"

/* The structs lie as the library has them: four bytes a field, and nothing between. */
_Static_assert(sizeof(hudzmoke_value) == 8, "a value has 8 bytes");
_Static_assert(sizeof(hudzmoke_frame) == 144, "a frame has 144 bytes");
_Static_assert(sizeof(hudzmoke_object) == 132, "an object has 132 bytes");

#define ZERO "4000000000000000"
#define NONE "0000000000000000"

static const char sample[] =
    "01ff\n"
    "0100\n"
    "0101\n"
    "0101\n"
    "0101\n"
    "040000010100\n"
    "060d01000000000000\n"
    "061100000000000000\n"
    "040001010100\n"
    "061100000000000000\n";

static const char claim[] =
    "110000" ZERO ZERO "\n"
    "110001" ZERO ZERO "\n"
    "110100" ZERO ZERO "\n"
    "1400" ZERO "\n"
    "1401" ZERO "\n"
    "1500" NONE "\n"
    "1501" NONE "\n";

/* The same with an empty result at method 0, address 1: it is not what method 1 returns. */
static const char false_claim[] =
    "110000" ZERO ZERO "\n"
    "110001" ZERO NONE "\n"
    "110100" ZERO ZERO "\n"
    "1400" ZERO "\n"
    "1401" ZERO "\n"
    "1500" NONE "\n"
    "1501" NONE "\n";

/* Class 5 has a field, and there is a static: method 0 makes an object, puts 7 into its field and -5 into the static. */
static const char storing[] =
    "01ff\n"
    "0100\n"
    "0101\n"
    "0101\n"
    "0101\n"
    "0100\n"
    "0205\n"
    "03\n"
    "040000010200\n"
    "060700050000000000\n"
    "060201000000000007\n"
    "060901000000000000\n"
    "0602010000fffffffb\n"
    "060b01000000000000\n"
    "061100000000000000\n";

/* Method 0 reads field 0 of null: an object of class 2 is raised. The handler for that class puts it into register 1. */
static const char raising[] =
    "01ff\n"
    "0100\n"
    "0101\n"
    "0101\n"
    "0101\n"
    "0202\n"
    "040000010200\n"
    "060800010000000000\n"
    "061100000000000000\n"
    "060f01000000000000\n"
    "061001000000000000\n"
    "0500010202\n";

/* The superclass of class 1 is class 1: a value that is not allowed, at line 2. */
static const char own_superclass[] =
    "01ff\n"
    "0101\n"
    "0101\n"
    "0101\n"
    "0101\n"
    "040000010100\n"
    "061100000000000000\n";

/* The number of a panel's text; its line is printed. */
static uint64_t read_panel(const char *panel)
{
    uint64_t answer[HUDZMOKE_ANSWER];
    uint64_t number = hudzmoke_read((const uint8_t *)panel, strlen(panel), answer, HUDZMOKE_ANSWER);
    if (number == HUDZMOKE_READ)
        printf("read\n");
    else
        printf("refused: number %" PRIu64 ", line %" PRIu64 "\n", number, answer[1]);
    return number;
}

/* The number of the verdict on a claim about the sample: the panel may be locked if it is HUDZMOKE_ACCEPTED. */
static uint64_t check_bytes(const uint8_t *text, size_t length)
{
    uint8_t memory[HUDZMOKE_MEMORY];
    uint64_t answer[HUDZMOKE_ANSWER];
    uint64_t number = hudzmoke_check((const uint8_t *)sample, strlen(sample), text, length,
                                     memory, sizeof memory, answer, HUDZMOKE_ANSWER);
    switch (number) {
    case HUDZMOKE_ACCEPTED:
        printf("accepted, calls: %" PRIu64 "\n", answer[1]);
        for (uint64_t k = 0; k < answer[1]; k++)
            printf("  method %u, address %u calls method %u\n", memory[3 * k], memory[3 * k + 1], memory[3 * k + 2]);
        break;
    case HUDZMOKE_VIOLATED:
        printf("violated: rule %" PRIu64 ", method %" PRIu64 ", address %" PRIu64 "\n", answer[1], answer[2], answer[3]);
        break;
    default:
        printf("refused: number %" PRIu64 ", line %" PRIu64 "\n", number, answer[1]);
    }
    return number;
}

static uint64_t check(const char *text)
{
    return check_bytes((const uint8_t *)text, strlen(text));
}

/* The number of a claim about the sample that is written to so many bytes of memory; it is checked at once. */
static uint64_t write_claim(size_t length)
{
    static uint8_t text[HUDZMOKE_CLAIM];
    uint64_t answer[HUDZMOKE_ANSWER];
    uint64_t number = hudzmoke_write_claim((const uint8_t *)sample, strlen(sample), text, length, answer, HUDZMOKE_ANSWER);
    if (number != HUDZMOKE_WRITTEN) {
        printf("not written: number %" PRIu64 ", line %" PRIu64 "\n", number, answer[1]);
        return number;
    }
    printf("written, bytes: %" PRIu64 "\n", answer[1]);
    return check_bytes(text, answer[1]) == HUDZMOKE_ACCEPTED ? number : HUDZMOKE_VIOLATED;
}

static void print_value(const char *name, unsigned place, hudzmoke_value v)
{
    if (v.object == 0)
        printf("  %s %u: number %" PRId32 "\n", name, place, v.number);
    else
        printf("  %s %u: object %" PRIu32 "\n", name, place, v.object - 1);
}

/* The number of a panel that is run for at most n steps. The first so many registers of each frame, cells of each object and statics are
 * printed: the lent memory does not say how many a method, a class and the panel have. */
static uint64_t step(const char *panel, uint64_t n, unsigned registers, unsigned cells, unsigned places)
{
    static hudzmoke_frame frames[HUDZMOKE_FRAMES];
    static hudzmoke_object objects[HUDZMOKE_OBJECTS];
    static hudzmoke_value statics[HUDZMOKE_STATICS];
    uint64_t answer[HUDZMOKE_ANSWER];
    uint64_t number = hudzmoke_step((const uint8_t *)panel, strlen(panel), n, frames, HUDZMOKE_FRAMES,
                                    objects, HUDZMOKE_OBJECTS, statics, HUDZMOKE_STATICS, answer, HUDZMOKE_ANSWER);
    if (number < HUDZMOKE_FULL_STORE) {
        printf("refused: number %" PRIu64 ", line %" PRIu64 "\n", number, answer[1]);
        return number;
    }
    printf("after %" PRIu64 " steps: number %" PRIu64 ", frames %" PRIu64 ", objects %" PRIu64 "\n",
           answer[1], number, answer[3], answer[4]);
    for (uint64_t k = 0; k < answer[3]; k++) {
        printf("  frame %" PRIu64 ": method %" PRIu32 ", address %" PRIu32 "\n", k, frames[k].method, frames[k].address);
        for (unsigned r = 0; r < registers; r++)
            print_value("  register", r, frames[k].registers[r]);
    }
    for (uint64_t k = 0; k < answer[4]; k++) {
        printf("  object %" PRIu64 ": class %" PRIu32 "\n", k, objects[k].class_number);
        for (unsigned x = 0; x < cells; x++)
            print_value("  cell", x, objects[k].cells[x]);
    }
    for (unsigned x = 0; x < places; x++)
        print_value("static", x, statics[x]);
    return number;
}

/* Exits with 0 if all numbers are as the documents say. */
int main(void)
{
    int read = read_panel(sample) == HUDZMOKE_READ;
    int refused = read_panel(own_superclass) == HUDZMOKE_PROGRAM_BAD_VALUE;
    int accepted = check(claim) == HUDZMOKE_ACCEPTED;
    int violated = check(false_claim) == HUDZMOKE_VIOLATED;
    int written = write_claim(HUDZMOKE_CLAIM) == HUDZMOKE_WRITTEN;
    int short_of = write_claim(200) == HUDZMOKE_SHORT;
    int stepped = step(sample, 2, 1, 0, 0) == HUDZMOKE_STEPS_MADE;
    int ended = step(sample, 1000, 1, 0, 0) == HUDZMOKE_DONE;
    int stored = step(storing, 5, 2, 1, 1) == HUDZMOKE_STEPS_MADE;
    int raised = step(raising, 3, 2, 1, 0) == HUDZMOKE_STEPS_MADE;
    return read && refused && accepted && violated && written && short_of && stepped && ended && stored && raised ? 0 : 1;
}
