/* Prints what the calls of club.h answer for a set and a plan, whose files are the two arguments. */
#include "club.h"

#include <inttypes.h>
#include <stdio.h>

static uint8_t set[1100000], plan[2500], out_set[1024064], out_plan[2054], out_steps[384];
static int64_t out[4096 * 32];
static uint64_t scratch[1000000];

/* Reads a file; one that is not there counts as empty. */
static size_t read_file(const char *name, uint8_t *to, size_t room)
{
    FILE *file = fopen(name, "rb");
    size_t length = 0;
    if (file != NULL) {
        length = fread(to, 1, room, file);
        fclose(file);
    }
    return length;
}

static void print_report(size_t set_len, size_t plan_len)
{
    uint64_t word = club_report(set, set_len, plan, plan_len, out, sizeof out / sizeof *out,
                                scratch, sizeof scratch / sizeof *scratch);
    size_t cell, cells = club_rows(word) * club_columns(word);
    printf("report refusal %u rows %zu columns %zu:", club_refusal(word), club_rows(word), club_columns(word));
    for (cell = 0; cell < cells; cell++)
        printf(" %" PRId64, out[cell]);
    printf("\n");
}

/* The steps and the plan left, and whether the two are accepted when they come back. */
static void print_steps(size_t set_len, size_t plan_len)
{
    uint64_t word = club_unnest(set, set_len, plan, plan_len, out_plan, sizeof out_plan, out_steps, sizeof out_steps,
                                scratch, sizeof scratch / sizeof *scratch);
    uint64_t checked = club_check_steps(set, set_len, plan, plan_len, out_steps, 2 * club_steps(word),
                                        out_plan, club_plan_bytes(word), scratch, sizeof scratch / sizeof *scratch);
    size_t step;
    printf("unnest refusal %u bytes %zu steps %zu:", club_refusal(word), club_plan_bytes(word), club_steps(word));
    for (step = 0; step < club_steps(word); step++)
        printf(" U%u %u", out_steps[2 * step], out_steps[2 * step + 1]);
    printf("\ncheck refusal %u\n", club_refusal(checked));
}

static void print_notes(size_t set_len, size_t plan_len)
{
    size_t place;
    for (place = 0; place < 3; place++) {
        uint64_t word = club_stay_note(set, set_len, plan, plan_len, place, scratch, sizeof scratch / sizeof *scratch);
        if (club_has_note(word))
            printf("note at %zu: position %zu\n", place, club_position(word));
        else
            printf("note at %zu: none, refusal %u\n", place, club_refusal(word));
    }
}

/* The prize fund table of a purse of 1,001 pence, with shares that sum to 10,000 where there are three of them. */
static void print_prizes(size_t set_len, size_t plan_len, size_t count)
{
    static const uint32_t shares[3] = {5000, 3000, 2000};
    uint64_t word = club_prize(set, set_len, plan, plan_len, 1001, shares, count, out, sizeof out / sizeof *out,
                               scratch, sizeof scratch / sizeof *scratch);
    size_t cell;
    printf("prizes refusal %u rows %zu club line %" PRIu64 ":", club_refusal(word), club_prize_rows(word), club_line(word));
    for (cell = 0; cell < 2 * club_prize_rows(word); cell++)
        printf(" %" PRId64, out[cell]);
    printf("\n");
}

/* Down to version 1, and what was given up again. */
static void print_converted(size_t set_len, size_t plan_len)
{
    uint64_t down = club_convert_down(set, set_len, plan, plan_len, out_set, sizeof out_set, out_plan, sizeof out_plan);
    size_t set_bytes = club_converted_set_bytes(down), plan_bytes = club_converted_plan_bytes(down);
    uint64_t up = club_convert_up(out_set, set_bytes, out_plan, plan_bytes, set, sizeof set, plan, sizeof plan);
    printf("down refusal %u set %zu plan %zu\n", club_refusal(down), set_bytes, plan_bytes);
    printf("up refusal %u set %zu plan %zu\n", club_refusal(up), club_converted_set_bytes(up), club_converted_plan_bytes(up));
}

int main(int count, char **names)
{
    size_t set_len, plan_len;
    if (count != 3)
        return 2;
    set_len = read_file(names[1], set, sizeof set);
    plan_len = read_file(names[2], plan, sizeof plan);
    print_report(set_len, plan_len);
    print_steps(set_len, plan_len);
    print_notes(set_len, plan_len);
    print_prizes(set_len, plan_len, 3);
    print_prizes(set_len, plan_len, 2);
    print_converted(set_len, plan_len);
    return 0;
}
