/* Console 1 of 2 writes 7 on three nodes; nodes 0 and 2 are a majority, so the write finishes without node 1, which then
 * goes down and comes back. Then the same write after a restart of its console, previews, a read under release 2, a link that
 * tiles share, and the check of a shift's record.
 * Ends with 0 if every answer is the one that is written here. */
#include "board.h"

static uint32_t words[BOARD_WORDS];
static uint32_t said[ANSWER_WORDS];

/* to the node, and back to the console: the second outcome */
static uint32_t twice(uint32_t console, uint32_t node)
{
    if (board_deliver(words, BOARD_WORDS, said, ANSWER_WORDS, console, node) != 0 || said[0] != 2)
        return 0;
    if (board_deliver(words, BOARD_WORDS, said, ANSWER_WORDS, console, node) != 0)
        return 0;
    return said[0];
}

/* the same write as one list of ten steps; the two replies that it takes in carry the fresh board's tag (0, 0), the same as the
 * console's best */
static int list(void)
{
    static const uint32_t steps[10 * STEP_WORDS] = {
        STEP_FRESH, 3, 2, STEP_BEGIN_WRITE, 1, 7,
        STEP_DELIVER, 1, 0, STEP_DELIVER, 1, 0, STEP_DELIVER, 1, 2, STEP_DELIVER, 1, 2,
        STEP_DELIVER, 1, 0, STEP_DELIVER, 1, 0, STEP_DELIVER, 1, 2, STEP_DELIVER, 1, 2,
    };
    static const uint32_t outcomes[10] = {1, 1, 2, 3, 2, 4, 2, 3, 2, 5};
    static const uint32_t compared[10] = {0, 0, 0, 2, 0, 2, 0, 0, 0, 0};
    static uint32_t answers[10 * ANSWER_WORDS];
    if (board_run(words, BOARD_WORDS, steps, 10 * STEP_WORDS, answers, 10 * ANSWER_WORDS) != 0)
        return 9;
    for (int i = 0; i < 10; i++)
        if (answers[i * ANSWER_WORDS] != outcomes[i] || answers[i * ANSWER_WORDS + 5] != compared[i])
            return 10;
    return 0;
}

/* console 1 writes 7 by nodes 0 and 2; its tag is (1, 1) of this life */
static int write_7(uint32_t life)
{
    if (board_begin_write(words, BOARD_WORDS, said, ANSWER_WORDS, 1, 7) != 0 || said[0] != 1)
        return 2;
    if (twice(1, 0) != 3 || twice(1, 2) != 4 || twice(1, 0) != 3 || twice(1, 2) != 5)
        return 3;
    if (said[2] != 1 || said[3] != 1 || said[4] != 7 || said[6] != life)
        return 4;
    return 0;
}

/* a console that goes down in its write and is restarted writes in life 1 */
static int again(void)
{
    if (board_fresh(words, BOARD_WORDS, said, ANSWER_WORDS, 3, 2) != 0 || said[0] != 1)
        return 14;
    if (board_begin_write(words, BOARD_WORDS, said, ANSWER_WORDS, 1, 8) != 0 || said[0] != 1)
        return 15;
    if (board_console_down(words, BOARD_WORDS, said, ANSWER_WORDS, 1) != 0 || said[0] != 1)
        return 16;
    if (board_restart(words, BOARD_WORDS, said, ANSWER_WORDS, 1) != 0 || said[0] != 1)
        return 17;
    /* now console 1 is up: refused with 15 */
    if (board_restart(words, BOARD_WORDS, said, ANSWER_WORDS, 1) != 0 || said[0] != 0 || said[1] != 15)
        return 18;
    return write_7(1);
}

/* a delivery seen before it is made: there is no frame yet; then a read has three in flight, of which one is handed on */
static int ahead(void)
{
    if (board_fresh(words, BOARD_WORDS, said, ANSWER_WORDS, 3, 2) != 0 || said[0] != 1)
        return 19;
    if (board_preview(words, BOARD_WORDS, said, ANSWER_WORDS, 0, 1) != 0 || said[1] != 8 || said[5] != 0)
        return 20;
    if (board_begin_read(words, BOARD_WORDS, said, ANSWER_WORDS, 0) != 0 || said[0] != 1)
        return 21;
    /* twice the same: the board is only read */
    for (int i = 0; i < 2; i++)
        if (board_preview(words, BOARD_WORDS, said, ANSWER_WORDS, 0, 1) != 0 || said[0] != 2 || said[5] != 3)
            return 22;
    return 0;
}

/* under release 2 a read of a fresh board finishes with its second reply, whose tag is the same as the first's */
static int quiet(void)
{
    if (board_fresh_release_2(words, BOARD_WORDS, said, ANSWER_WORDS, 3, 2) != 0 || said[0] != 1)
        return 11;
    if (board_begin_read(words, BOARD_WORDS, said, ANSWER_WORDS, 0) != 0 || said[0] != 1)
        return 12;
    if (twice(0, 0) != 3 || twice(0, 2) != 5 || said[5] != 2)
        return 13;
    return 0;
}

/* console 0 reads and console 1 writes 7, while a tile waits at every turn: of 28 turns the tiles take one in four, and
 * both consoles finish */
static int shared(void)
{
    static uint32_t turn[TURN_WORDS] = TURN_START;
    uint32_t tiles = 0, finished = 0;
    if (board_fresh(words, BOARD_WORDS, said, ANSWER_WORDS, 3, 2) != 0 || said[0] != 1)
        return 23;
    if (board_begin_read(words, BOARD_WORDS, said, ANSWER_WORDS, 0) != 0 || said[0] != 1)
        return 24;
    if (board_begin_write(words, BOARD_WORDS, said, ANSWER_WORDS, 1, 7) != 0 || said[0] != 1)
        return 25;
    for (int i = 0; i < 28; i++) {
        if (board_turn(words, BOARD_WORDS, turn, TURN_WORDS, 1) != 0 || turn[3] == LINK_NOTHING)
            return 26;
        if (turn[3] == LINK_TILE)
            tiles++;
        else if (board_deliver(words, BOARD_WORDS, said, ANSWER_WORDS, turn[5], turn[6]) != 0 || said[0] == 0)
            return 27;
        else if (said[0] == 5)
            finished++;
    }
    return tiles == 7 && finished == 2 ? 0 : 28;
}

/* a write of 7, and a read after it: of 7 and in order, of another value, of what was there before, of another life's tag */
static int checked(void)
{
    static struct shift_record records[2] = {{1, 1, 3, 11, 1, 1, 0, 7}, {0, 0, 12, 20, 1, 1, 0, 7}};
    struct shift_verdict verdict = shift_check(records, 2);
    if (verdict.refusal != 0 || verdict.rule != 0 || verdict.other != NO_RECORD)
        return 29;
    records[1].value = 8;
    verdict = shift_check(records, 2);
    if (verdict.rule != RULE_NO_SUCH_WRITE || verdict.record != 1 || verdict.other != 0)
        return 30;
    records[1].ts = records[1].tag_console = records[1].value = 0;
    verdict = shift_check(records, 2);
    if (verdict.rule != RULE_TAG_TOO_LOW || verdict.record != 1 || verdict.other != 0)
        return 31;
    records[1] = records[0];
    records[1].life = 1001;
    verdict = shift_check(records, 2);
    return verdict.refusal == 18 && verdict.rule == 0 && shift_check(records, 257).refusal == 17 ? 0 : 32;
}

int main(void)
{
    if (board_fresh(words, BOARD_WORDS, said, ANSWER_WORDS, 3, 2) != 0 || said[0] != 1)
        return 1;
    int wrong = write_7(0);
    if (wrong != 0)
        return wrong;
    /* there is no console 2: refused by question 4 */
    if (board_begin_read(words, BOARD_WORDS, said, ANSWER_WORDS, 2) != 0 || said[0] != 0 || said[1] != 4)
        return 5;
    if (board_node_down(words, BOARD_WORDS, said, ANSWER_WORDS, 1) != 0 || said[0] != 1)
        return 6;
    if (board_node_up(words, BOARD_WORDS, said, ANSWER_WORDS, 1) != 0 || said[0] != 1)
        return 7;
    /* now node 1 is up: refused with 14 */
    if (board_node_up(words, BOARD_WORDS, said, ANSWER_WORDS, 1) != 0 || said[0] != 0 || said[1] != 14)
        return 8;
    wrong = list();
    if (wrong == 0)
        wrong = again();
    if (wrong == 0)
        wrong = ahead();
    if (wrong == 0)
        wrong = quiet();
    if (wrong == 0)
        wrong = shared();
    return wrong != 0 ? wrong : checked();
}
