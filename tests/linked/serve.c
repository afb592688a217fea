// Answers calls of the static library: frames on standard input, answers on standard output.
//
// A frame is a head, the state where the call has one, and the words of its lists, of which the lengths stand in the
// head. The state and the answers are the bytes of the header's structs. A tick's grants come with one word more than
// is lent and go back behind the answer. A frame with call 0 wants all answers so far.

#include "piszczalin.h"

#include <stdint.h>
#include <stdio.h>
#include <stdlib.h>

enum { ALL_SO_FAR, START, NOW, TICK, ENERGY };

// The longest list, with the word past its end.
enum { LONGEST = 32 };

struct head {
    uint64_t call;
    uint64_t counts[4];
};

static void die(const char *words)
{
    fprintf(stderr, "serve: %s\n", words);
    exit(1);
}

// Reads so many bytes.
static void take(void *to, size_t size)
{
    if (fread(to, 1, size, stdin) != size)
        die("a frame ends early");
}

// Writes so many bytes.
static void give(const void *from, size_t size)
{
    if (fwrite(from, 1, size, stdout) != size)
        die("an answer cannot be written");
}

// Reads the words of a list.
static void take_list(uint64_t *list, uint64_t count)
{
    if (count > LONGEST)
        die("a list is too long");
    take(list, count * sizeof *list);
}

static void start(const uint64_t counts[4])
{
    uint64_t lists[4][LONGEST];
    for (int list = 0; list < 4; list++)
        take_list(lists[list], counts[list]);
    piszczalin_started answer = piszczalin_start(lists[0], counts[0], lists[1], counts[1],
                                                 lists[2], counts[2], lists[3], counts[3]);
    give(&answer, sizeof answer);
}

static void now(void)
{
    piszczalin_state state;
    take(&state, sizeof state);
    piszczalin_told answer = piszczalin_now(state);
    give(&answer, sizeof answer);
}

static void tick(const uint64_t counts[4])
{
    piszczalin_state state;
    uint64_t report[LONGEST];
    uint64_t grants[LONGEST];
    take(&state, sizeof state);
    take_list(report, counts[0]);
    take_list(grants, counts[1] + 1);
    piszczalin_ticked answer = piszczalin_tick(state, report, counts[0], grants, counts[1]);
    give(&answer, sizeof answer);
    give(grants, (counts[1] + 1) * sizeof *grants);
}

static void energy(void)
{
    piszczalin_state state;
    take(&state, sizeof state);
    piszczalin_used answer = piszczalin_energy(state);
    give(&answer, sizeof answer);
}

// One frame after its head.
static void serve(const struct head *head)
{
    switch (head->call) {
    case ALL_SO_FAR:
        if (fflush(stdout) != 0)
            die("the answers cannot be written");
        break;
    case START:
        start(head->counts);
        break;
    case NOW:
        now();
        break;
    case TICK:
        tick(head->counts);
        break;
    case ENERGY:
        energy();
        break;
    default:
        die("a frame has no such call");
    }
}

int main(void)
{
    struct head head;
    size_t size;
    setvbuf(stdin, NULL, _IOFBF, 1 << 18);
    setvbuf(stdout, NULL, _IOFBF, 1 << 18);
    while ((size = fread(&head, 1, sizeof head, stdin)) == sizeof head)
        serve(&head);
    if (size != 0 || ferror(stdin))
        die("a head ends early");
    return 0;
}
