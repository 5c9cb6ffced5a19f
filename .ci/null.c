/*
 * NULL where the length beside it is 0: each call answers as it does to a valid
 * pointer with length 0, for every set of its pointers, whatever the others
 * lend, under settings that pass and under settings that are refused. Nothing is
 * read or written through NULL, which is a fault, and it goes neither to memcpy
 * nor to memset, to which it may not go even with length 0.
 *
 * Compiled as C and as C++ by .ci/null, with its memcpy and memset wrapped.
 */
#include <signal.h>
#include <stdio.h>
#include <string.h>
#include <unistd.h>

#include "dikdumar.h"

enum { LONGEST_OPERAND = 2048, LONGEST_LIST = 256, LONGEST_TICKET = 57344, UNTOUCHED = 0xA5, CHANGED = 1000 };

static int passed, failed;

/* The call that is made, for messages. */
static char doing[300];

static void stop(const char *what)
{
    (void)!write(STDOUT_FILENO, "FAILED: ", 8);
    (void)!write(STDOUT_FILENO, what, strlen(what));
    (void)!write(STDOUT_FILENO, doing, strlen(doing));
    (void)!write(STDOUT_FILENO, "\n", 1);
    _exit(1);
}

static void fault(int number)
{
    (void)number;
    stop("a fault in ");
}

#ifdef __cplusplus
extern "C" {
#endif
void *__real_memcpy(void *to, const void *from, size_t length);
void *__real_memset(void *to, int byte, size_t length);

void *__wrap_memcpy(void *to, const void *from, size_t length)
{
    if (to == NULL || from == NULL)
        stop("NULL goes to memcpy in ");
    return __real_memcpy(to, from, length);
}

void *__wrap_memset(void *to, int byte, size_t length)
{
    if (to == NULL)
        stop("NULL goes to memset in ");
    return __real_memset(to, byte, length);
}
#ifdef __cplusplus
}
#endif

static void count(const char *what, int is_right)
{
    if (is_right) {
        passed++;
    } else {
        failed++;
        printf("FAILED: %s\n", what);
    }
}

/* What a call gives. All but those of runs give no state and no mark, which are 0
 * then. */
typedef dikdumar_run_answer reply;

static int is_same(reply x, reply y)
{
    return memcmp(&x, &y, sizeof x) == 0;
}

/* What a pointer and the length beside it lend. */
typedef struct {
    const char *what;
    const void *items;
    size_t length;
} lent;

static lent lend(const char *what, const void *items, size_t length)
{
    lent made = {what, items, length};
    return made;
}

/* In place of NULL, a valid pointer with length 0. */
static lent without_null(lent given, const void *valid)
{
    return given.items == NULL ? lend("empty", valid, 0) : given;
}

/* The calls, and their pointers in order. */
enum { CHALLENGE, FULL, WRITER, BIAS_CHALLENGE, BIAS_FULL, BIAS_WRITER, RUN_BEGIN, RUN_STEP, RUN_ADD, CALLS };
enum { POINTERS = 4, SETS = 1 << POINTERS, CHOICES = 4 };
typedef struct {
    const char *name;
    int count;
    const char *pointers[POINTERS];
} declaration;
static const declaration CALL[CALLS] = {
    {"dikdumar_challenge_check", 2, {"ticket", "list"}},
    {"dikdumar_full_check", 1, {"ticket"}},
    {"dikdumar_write_ticket", 3, {"a", "b", "output"}},
    {"dikdumar_bias_challenge_check", 2, {"ticket", "list"}},
    {"dikdumar_bias_full_check", 1, {"ticket"}},
    {"dikdumar_write_bias_ticket", 4, {"a", "b", "bias", "output"}},
    {"dikdumar_run_begin", 2, {"ticket", "list"}},
    {"dikdumar_run_step", 1, {"ticket"}},
    {"dikdumar_run_add", 1, {"vector"}},
};

/* A setting, and what is handed in under it. The plain calls take its part that
 * is theirs. */
static dikdumar_bias_setting setting;
static dikdumar_run run;
static int32_t a[LONGEST_OPERAND], b[LONGEST_OPERAND], bias[LONGEST_OPERAND];
static int32_t beyond_t[LONGEST_OPERAND], beyond_w[LONGEST_OPERAND];
static uint32_t list[LONGEST_LIST], list_of_p[LONGEST_LIST];
static uint8_t ticket[LONGEST_TICKET], bias_ticket[LONGEST_TICKET];
static uint8_t damaged[LONGEST_TICKET], damaged_bias[LONGEST_TICKET], output[LONGEST_TICKET];
static size_t a_length, b_length, bias_length, list_length, vector_length, ticket_length, bias_ticket_length;

/* Takes a setting, with what passes under another. */
static void prepare(dikdumar_bias_setting taken, dikdumar_bias_setting passes)
{
    const dikdumar_setting plain = passes.setting;
    dikdumar_answer written, bias_written;
    size_t k;

    for (k = 0; k < LONGEST_OPERAND; k++) {
        a[k] = (int32_t)(k % 3) - 1;
        b[k] = 1 - (int32_t)(k % 2);
        bias[k] = 1 - (int32_t)(k % 3);
        beyond_t[k] = (int32_t)plain.bound + 1;
        beyond_w[k] = -(int32_t)passes.bias_bound - 1;
    }
    for (k = 0; k < LONGEST_LIST; k++) {
        list[k] = (uint32_t)k;
        list_of_p[k] = 2147483647;
    }
    a_length = (size_t)plain.rows * plain.inner;
    b_length = (size_t)plain.inner * plain.columns;
    bias_length = (size_t)plain.rows * plain.columns;
    list_length = (size_t)plain.vectors * plain.columns;
    vector_length = plain.columns;
    written = dikdumar_write_ticket(plain, a, a_length, b, b_length, ticket, LONGEST_TICKET);
    count("a ticket to begin with", written.number == 0);
    bias_written = dikdumar_write_bias_ticket(passes, a, a_length, b, b_length, bias, bias_length, bias_ticket,
                                              LONGEST_TICKET);
    count("a bias ticket to begin with", bias_written.number == 0);
    ticket_length = written.place;
    bias_ticket_length = bias_written.place;
    memcpy(damaged, ticket, LONGEST_TICKET);
    memcpy(damaged_bias, bias_ticket, LONGEST_TICKET);
    damaged[0] = damaged_bias[0] = 0;
    setting = taken;

    /* Under way, at its first row, with other numbers than 0 wherever there may be any. */
    memset(&run, UNTOUCHED, sizeof run);
    run.setting = taken.setting;
    run.list_length = (uint32_t)list_length;
    for (k = 0; k < list_length; k++)
        run.list[k] = (uint32_t)k + 1;
    run.vector = run.row = run.caught = 0;
}

static void describe(int call, const lent *given)
{
    int k, end = sprintf(doing, "%s(", CALL[call].name);

    for (k = 0; k < CALL[call].count; k++)
        end += sprintf(doing + end, "%s%s", k > 0 ? ", " : "", given[k].what);
    sprintf(doing + end, ") under l = %u, n = %u, a = %u, v = %u, o = %u, W = %u", (unsigned)setting.setting.rows,
            (unsigned)setting.setting.columns, (unsigned)setting.setting.scale, (unsigned)setting.setting.width,
            (unsigned)setting.setting.rounding, (unsigned)setting.bias_bound);
}

static dikdumar_answer check(int call, const lent *given)
{
    const uint8_t *t = (const uint8_t *)given[0].items;
    const uint32_t *x = (const uint32_t *)given[1].items;

    switch (call) {
    case CHALLENGE:
        return dikdumar_challenge_check(setting.setting, t, given[0].length, x, given[1].length);
    case FULL:
        return dikdumar_full_check(setting.setting, t, given[0].length);
    case BIAS_CHALLENGE:
        return dikdumar_bias_challenge_check(setting, t, given[0].length, x, given[1].length);
    default:
        return dikdumar_bias_full_check(setting, t, given[0].length);
    }
}

/* The output is the array of that name, or NULL. */
static dikdumar_answer write_ticket(int call, const lent *given)
{
    const int32_t *x = (const int32_t *)given[0].items, *y = (const int32_t *)given[1].items;
    const lent out = given[CALL[call].count - 1];
    uint8_t *room = out.items == NULL ? NULL : output;
    dikdumar_answer answer;
    size_t k;

    memset(output, UNTOUCHED, LONGEST_TICKET);
    if (call == WRITER)
        answer = dikdumar_write_ticket(setting.setting, x, given[0].length, y, given[1].length, room, out.length);
    else
        answer = dikdumar_write_bias_ticket(setting, x, given[0].length, y, given[1].length,
                                            (const int32_t *)given[2].items, given[2].length, room, out.length);
    for (k = 0; k < LONGEST_TICKET; k++)
        if (answer.number != 0 && output[k] != UNTOUCHED)
            answer.number = CHANGED;
    return answer;
}

/* Makes a call with what its pointers lend, in their order. */
static reply make(int call, const lent *given)
{
    const uint8_t *t = (const uint8_t *)given[0].items;
    const uint32_t *x = (const uint32_t *)given[0].items, *y = (const uint32_t *)given[1].items;
    reply made;

    describe(call, given);
    switch (call) {
    case RUN_BEGIN:
        return dikdumar_run_begin(setting.setting, t, given[0].length, y, given[1].length);
    case RUN_STEP:
        return dikdumar_run_step(run, t, given[0].length);
    case RUN_ADD:
        return dikdumar_run_add(run, x, given[0].length);
    default:
        memset(&made, 0, sizeof made);
        made.answer = call == WRITER || call == BIAS_WRITER ? write_ticket(call, given) : check(call, given);
        return made;
    }
}

/* The pointers of a set that are NULL, in words: the first counts 1, the second
 * 2, the third 4, the fourth 8. */
static const char *words(int call, int set)
{
    static char made[100];
    int k, end = 0;

    for (k = 0; k < CALL[call].count; k++)
        if (set >> k & 1)
            end += sprintf(made + end, "%s%s", end == 0 ? "" : set >> (k + 1) ? ", " : " and ", CALL[call].pointers[k]);
    return made;
}

static unsigned compared[CALLS][SETS], different[CALLS][SETS];

static void compare(int call, int set, reply with_null, reply expected)
{
    const dikdumar_answer x = expected.answer, y = with_null.answer;

    compared[call][set]++;
    if (!is_same(with_null, expected)) {
        different[call][set]++;
        printf("%s: %u %u %u %u, and with NULL for %s %u %u %u %u, or another mark or state\n", doing, (unsigned)x.number,
               (unsigned)x.place, (unsigned)x.row, (unsigned)x.products, words(call, set), (unsigned)y.number,
               (unsigned)y.place, (unsigned)y.row, (unsigned)y.products);
    }
}

static const lent null = {"NULL", NULL, 0}, none = {"", NULL, 0};

/* What a pointer may lend: NULL, and three others, the last of which is right. */
typedef lent choices[CHOICES];

static void choose(lent *made, lent x, lent y, lent z)
{
    made[0] = null;
    made[1] = x;
    made[2] = y;
    made[3] = z;
}

/* A call with every choice for each of its pointers, where one at least is NULL. */
static void compare_call(int call, choices *lends)
{
    lent given[POINTERS] = {none, none, none, none}, valid[POINTERS] = {none, none, none, none};
    const int picks = 1 << (2 * CALL[call].count);
    reply found;
    int k, pick, set;

    for (pick = 0; pick < picks; pick++) {
        set = 0;
        for (k = 0; k < CALL[call].count; k++) {
            given[k] = lends[k][pick >> (2 * k) & 3];
            valid[k] = without_null(given[k], lends[k][CHOICES - 1].items);
            set |= (given[k].items == NULL) << k;
        }
        if (set != 0) {
            found = make(call, given);
            compare(call, set, found, make(call, valid));
        }
    }
}

/* The choices for the checks, also by steps, for the writers and for the addition. */
static choices of_checks[2], of_bias_checks[2], of_writer[3], of_bias_writer[4], of_addition[1];

static void compare_all(void)
{
    const lent short_list = lend("short", list, list_length - 1), list_beyond = lend("of p", list_of_p, list_length);
    const lent good_list = lend("good", list, list_length);

    choose(of_checks[0], lend("short", ticket, ticket_length - 1), lend("damaged", damaged, ticket_length),
           lend("good", ticket, ticket_length));
    choose(of_checks[1], short_list, list_beyond, good_list);
    choose(of_bias_checks[0], lend("short", bias_ticket, bias_ticket_length - 1),
           lend("damaged", damaged_bias, bias_ticket_length), lend("good", bias_ticket, bias_ticket_length));
    choose(of_bias_checks[1], short_list, list_beyond, good_list);

    choose(of_writer[0], lend("short", a, a_length - 1), lend("beyond T", beyond_t, a_length),
           lend("good", a, a_length));
    choose(of_writer[1], lend("short", b, b_length - 1), lend("beyond T", beyond_t, b_length),
           lend("good", b, b_length));
    choose(of_writer[2], lend("short", output, ticket_length - 1), lend("long", output, LONGEST_TICKET),
           lend("good", output, ticket_length));
    memcpy(of_bias_writer, of_writer, 2 * sizeof(choices));
    choose(of_bias_writer[2], lend("short", bias, bias_length - 1), lend("beyond W", beyond_w, bias_length),
           lend("good", bias, bias_length));
    choose(of_bias_writer[3], lend("short", output, bias_ticket_length - 1), lend("long", output, LONGEST_TICKET),
           lend("good", output, bias_ticket_length));
    choose(of_addition[0], lend("short", list, vector_length - 1), lend("of p", list_of_p, vector_length),
           lend("good", list, vector_length));

    compare_call(CHALLENGE, of_checks);
    compare_call(FULL, of_checks);
    compare_call(WRITER, of_writer);
    compare_call(BIAS_CHALLENGE, of_bias_checks);
    compare_call(BIAS_FULL, of_bias_checks);
    compare_call(BIAS_WRITER, of_bias_writer);
    compare_call(RUN_BEGIN, of_checks);
    compare_call(RUN_STEP, of_checks);
    compare_call(RUN_ADD, of_addition);
}

/* A refusal by a call that is lent these; where it has fewer pointers, the last are
 * not used. */
static void expect(int call, lent x, lent y, lent z, lent o, uint32_t number, uint32_t place)
{
    const lent given[POINTERS] = {x, y, z, o};
    const dikdumar_answer answer = {number, place, 0, 0};
    const reply found = make(call, given);
    reply expected;

    memset(&expected, 0, sizeof expected);
    expected.answer = answer;
    if (call >= RUN_BEGIN)
        expected.mark = DIKDUMAR_REFUSED;
    if (call > RUN_BEGIN)
        expected.run = run;
    count(doing, is_same(found, expected));
}

/* Under K with a bias. */
static void expect_all(void)
{
    const lent good_list = lend("good", list, list_length);
    const lent good_a = lend("good", a, a_length), good_b = lend("good", b, b_length);
    const lent good_bias = lend("good", bias, bias_length), b_beyond = lend("beyond T", beyond_t, b_length);
    const lent bias_beyond = lend("beyond W", beyond_w, bias_length);
    int call;

    for (call = CHALLENGE; call <= RUN_BEGIN; call += BIAS_CHALLENGE - CHALLENGE) {
        choices *lends = call == BIAS_CHALLENGE ? of_bias_checks : of_checks;

        expect(call, null, null, none, none, 4, 0);
        expect(call, null, good_list, none, none, 4, 0);
        expect(call, (*lends)[2], null, none, none, 5, 0);
        expect(call, (*lends)[3], null, none, none, 10, 0);
    }
    expect(FULL, null, none, none, none, 4, 0);
    expect(BIAS_FULL, null, none, none, none, 4, 0);
    expect(WRITER, null, null, null, none, 13, 0);
    expect(WRITER, good_a, null, null, none, 13, 1);
    expect(WRITER, good_a, b_beyond, null, none, 14, 4);
    expect(WRITER, good_a, good_b, null, none, 15, 0);
    expect(BIAS_WRITER, null, null, null, null, 13, 0);
    expect(BIAS_WRITER, good_a, null, null, null, 13, 1);
    expect(BIAS_WRITER, good_a, b_beyond, null, null, 13, 2);
    expect(BIAS_WRITER, good_a, b_beyond, bias_beyond, null, 14, 4);
    expect(BIAS_WRITER, good_a, good_b, bias_beyond, null, 18, 8);
    expect(BIAS_WRITER, good_a, good_b, good_bias, null, 15, 0);
    expect(RUN_STEP, null, none, none, none, 4, 0);
    expect(RUN_ADD, null, none, none, none, 10, 0);
}

int main(void)
{
    const dikdumar_bias_setting k = {{2, 2, 2, 1, 10, 8, 5, 0}, 23}, smallest = {{1, 1, 1, 1, 2, 1, 2, 1}, 1},
                                largest = {{32, 64, 32, 8, 65536, 2000, 14, 32768}, 1000};
    /* K with a number outside its limits, twice, with o of the scale, K unfit, and W
     * beyond its limit, which the plain calls don't have: the answers 1, 2, 19, 3 and
     * 17. */
    const dikdumar_bias_setting refused[] = {{{2, 2, 33, 1, 10, 8, 5, 0}, 23},
                                             {{2, 2, 2, 1, 1, 8, 5, 0}, 23},
                                             {{2, 2, 2, 1, 10, 8, 5, 10}, 23},
                                             {{2, 2, 2, 1, 10, 8, 4, 0}, 23},
                                             {{2, 2, 2, 1, 10, 8, 5, 0}, 1073741825}};
    const uint32_t numbers[] = {1, 2, 19, 3, 17};
    char what[200];
    int call, set, r;

    setvbuf(stdout, NULL, _IOLBF, 0);
    signal(SIGSEGV, fault);

    prepare(smallest, smallest);
    compare_all();
    prepare(largest, largest);
    compare_all();
    prepare(k, k);
    compare_all();
    expect_all();
    for (r = 0; r < 5; r++) {
        prepare(refused[r], k);
        compare_all();
        for (call = 0; call < CALLS; call++)
            if (numbers[r] != 17 || (BIAS_CHALLENGE <= call && call <= BIAS_WRITER))
                expect(call, null, null, null, null, numbers[r], 0);
    }

    for (call = 0; call < CALLS; call++)
        for (set = 1; set < 1 << CALL[call].count; set++) {
            sprintf(what, "%s with NULL for %s", CALL[call].name, words(call, set));
            count(what, compared[call][set] > 0 && different[call][set] == 0);
        }
    printf("%d passed, %d failed\n", passed, failed);
    return failed != 0;
}
