/* A small sorter controller: diverter, camera, scale and totals on two processors share three objects under the lock manager. */
#include <stdio.h>
#include <string.h>

#include "vongselik.h"

/* The jobs by rank, the most urgent first, and the objects. */
enum { DIVERTER = 1, CAMERA = 2, SCALE = 3, TOTALS = 4 };
enum { GATES = 1, IMAGE = 2, LABELS = 3 };

/* The bytes of a line of the state page. */
enum { PAGE_LINE = 21 };

static const char *const job_name[] = {"nobody", "diverter", "camera", "scale", "totals"};
static const char *const object_name[] = {"nothing", "gates", "image", "labels"};
static const char *const kind_name[] = {"?", "start", "read-lock", "write-lock", "unlock", "finish", "abandon", "certify", "sleep", "wake"};
static const char *const reason_name[] = {"?", "conflict", "ceiling", "cap"};

/* Diverter and scale on processor 0, camera and totals on 1. The diverter writes the gates, scale and totals read them; the camera reads image and labels. */
static const uint8_t table[] = {
    'J', 'O', 'B', 0, 1, 2, 4, 3, /* version 1, 2 processors, 4 jobs, 3 objects */
    0, 1, 0, 1,                   /* the processor of each rank */
    0, 5,                         /* 5 entries: rank, object, mode (1 read, 2 write, 3 both) */
    DIVERTER, GATES, 2, CAMERA, IMAGE, 1, CAMERA, LABELS, 1, SCALE, GATES, 1, TOTALS, GATES, 1};

typedef struct {
    uint8_t kind, rank, object;
} step;

/* The totals' read lock makes the camera wait; with its unlock the camera gets its lock. The camera sleeps while its shutter is open, and frees its processor
 * for the totals. It keeps its lock, which makes the scale wait until the camera, awake again, finishes. The scale's lock makes the diverter wait, which is
 * abandoned because the parcel has passed. The last step is one that the manager refuses. */
static const step scenario[] = {
    {VONGSELIK_START, TOTALS, 0},
    {VONGSELIK_READ_LOCK, TOTALS, GATES},
    {VONGSELIK_START, CAMERA, 0},
    {VONGSELIK_READ_LOCK, CAMERA, IMAGE},
    {VONGSELIK_UNLOCK, TOTALS, GATES},
    {VONGSELIK_SLEEP, CAMERA, 0},
    {VONGSELIK_START, SCALE, 0},
    {VONGSELIK_READ_LOCK, SCALE, GATES},
    {VONGSELIK_WAKE, CAMERA, 0},
    {VONGSELIK_READ_LOCK, CAMERA, LABELS},
    {VONGSELIK_FINISH, CAMERA, 0},
    {VONGSELIK_START, DIVERTER, 0},
    {VONGSELIK_WRITE_LOCK, DIVERTER, GATES},
    {VONGSELIK_ABANDON, DIVERTER, 0},
    {VONGSELIK_FINISH, SCALE, 0},
    {VONGSELIK_FINISH, TOTALS, 0},
    {VONGSELIK_FINISH, TOTALS, 0},
};

/* Prints what an event did. */
static void print_answer(vongselik_answer a)
{
    switch (a.answer) {
    case VONGSELIK_GRANTED:
        printf(": granted\n");
        break;
    case VONGSELIK_WAITS:
        printf(": waits for the lock of %s on %s (%s)\n", job_name[a.holder], object_name[a.object], reason_name[a.reason]);
        break;
    case VONGSELIK_DONE:
        if (a.woken) printf(": done, and %s gets its lock\n", job_name[a.woken]);
        else printf(": done\n");
        break;
    default:
        printf(": refused by %d\n", a.refusal);
    }
}

/* Prints which job each processor runs, with its inherited rank where that is not its own. Answers 0 if a question is refused. */
static int print_processors(const vongselik_state *state)
{
    uint8_t p, rank, inherited;
    printf("    ");
    for (p = 0; p < state->processors; p++) {
        if (vongselik_running(state, p, &rank)) return 0;
        printf("%sprocessor %d %s", p ? ", " : "", p, rank ? "runs " : "is idle");
        if (!rank) continue;
        printf("%s", job_name[rank]);
        if (vongselik_inherited_rank(state, rank, &inherited)) return 0;
        if (inherited != rank) printf(" (as urgent as %s)", job_name[inherited]);
    }
    printf("\n");
    return 1;
}

/* Prints the state page, line by line. Answers 0 if the call refuses. */
static int print_page(const vongselik_state *state)
{
    uint8_t page[VONGSELIK_LONGEST_PAGE];
    size_t length, line;
    if (vongselik_page(state, page, sizeof page, &length)) return 0;
    for (line = 0; line < length; line += PAGE_LINE) printf("    %.*s", (int)PAGE_LINE, (const char *)page + line);
    return 1;
}

/* Prints the ceilings of each object and the declared entries of each job. Answers 0 if a call refuses. */
static int print_table(const vongselik_state *state, size_t used)
{
    uint16_t write_ceiling, absolute_ceiling;
    uint8_t object, rank;
    printf("table of %lu bytes: %d jobs, %d objects, %d processors\n", (unsigned long)used, state->jobs, state->objects, state->processors);
    for (object = 1; object <= state->objects; object++) {
        if (vongselik_ceilings(state, object, &write_ceiling, &absolute_ceiling)) return 0;
        printf("    %s: write ceiling %d", object_name[object], write_ceiling);
        if (write_ceiling == VONGSELIK_NOBODY(state)) printf(" (nobody)");
        printf(", absolute ceiling %d\n", absolute_ceiling);
    }
    for (rank = 1; rank <= state->jobs; rank++) {
        vongselik_entries e = vongselik_job_entries(table, sizeof table, rank);
        if (e.refusal) return 0;
        printf("    %s: %lu bytes of entries from byte %lu on\n", job_name[rank], (unsigned long)e.length, (unsigned long)e.start);
    }
    return 1;
}

/* Whether the state's table, written, gives the bytes that were read. */
static int writes_back(const vongselik_state *state)
{
    uint8_t buffer[VONGSELIK_LONGEST_TABLE];
    size_t length;
    if (vongselik_write_table(state, buffer, sizeof buffer, &length)) return 0;
    return length == sizeof table && !memcmp(buffer, table, length);
}

int main(void)
{
    static vongselik_state state;
    vongselik_answer answer;
    size_t used, i;
    uint8_t refusal = vongselik_read_table(&state, table, sizeof table, &used);
    if (refusal) {
        printf("the table is refused by %d\n", refusal);
        return 1;
    }
    if (!print_table(&state, used)) return 1;
    for (i = 0; i < sizeof scenario / sizeof scenario[0]; i++) {
        step s = scenario[i];
        printf("%2lu. %s %s", (unsigned long)i + 1, job_name[s.rank], kind_name[s.kind]);
        if (s.object) printf(" %s", object_name[s.object]);
        answer = vongselik_event(&state, s.kind, s.rank, s.object);
        print_answer(answer);
        if (!print_processors(&state)) return 1;
        if (answer.answer == VONGSELIK_WAITS && !print_page(&state)) return 1;
    }
    printf("the table %s\n", writes_back(&state) ? "is as it was read" : "has changed");
    return 0;
}
