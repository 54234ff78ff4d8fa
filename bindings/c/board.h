/* The board for C, on x86-64. Link with crates/hatukeno/out/libhatukeno.a, which `rt lib` there writes.
 *
 * A board stands in BOARD_WORDS words of memory that the caller lends. A call puts a step to it (board_run a list of them,
 * board_preview and board_turn none), and the answer goes into ANSWER_WORDS words:
 *
 *   said[0]  the outcome: 0 refused, 1 done, 2 handed, 3 heard, 4 turned, 5 finished, 6 discarded
 *   said[1]  why it was refused, or 0:
 *              1 the board is not well formed   6 the console is down
 *              2 n is not from 1 to 5           7 the console is not idle
 *              3 m is not from 1 to 8           8 there is no frame between console and node
 *              4 there is no such console       9 the node is down
 *              5 there is no such node         10 there is no higher timestamp for the write
 *             14 the node is up                15 the console is up
 *             16 the console has no life left
 *   said[2], said[3], said[4]  the tag's ts and console, and the value, if it has finished; else 0
 *   said[5]  how the tag of a reply that was taken in compares with the best the console had before, (0, 0) for the first
 *            reply of an asking: 1 lower, 2 same, 3 higher; 0 for a refused step and one that takes no reply in. A read that
 *            a reply finishes (release 2) says it of that reply. Of a preview: see below
 *   said[6]  the tag's life, if it has finished; else 0
 *
 * If the step is accepted the next board is written back; if it is refused nothing of the lent board is written.
 *
 * A board is made under release 1 (board_fresh) or release 2 (board_fresh_release_2) and keeps it. Under release 2 a read
 * whose q replies (those of a majority) all carry the same tag finishes at that delivery, without telling; its other cells
 * stay as they are.
 *
 * A console that goes down leaves its frames in their cells. Delivering one of them gives discarded, whether the node is up or
 * down: the cell empties and nothing else changes, so a put of such a console reaches no node.
 *
 * A console that is down can be restarted: it is idle again, its cells are empty, and its life is one higher. On a
 * fresh board each life is 0; the last is 1000. A write's tag carries the life of its console, so that no two writes of
 * a console have one tag. Tags go by the ts, then by the console, then by the life.
 *
 * board_preview is no step: the board is only read. It says what board_deliver would answer, in the same words but for
 * said[5], which has the number of frames in flight after the delivery: the cells that hold a frame then, all of them; if it
 * is refused those that hold one now, and if it is refused with 1 then 0.
 *
 * board_run puts a whole list of steps to a board, one after the other: STEP_WORDS words for a step, its number (below) and
 * its two numbers in the order in which the step's own call takes them; a second number that the step does not take is
 * passed over. A step whose number none has is refused with 12, on any board. `said` gets ANSWER_WORDS words for each step,
 * and a refused step leaves the board as it was, a refused fresh too. STEP_FRESH makes release 1, on a board of release 2 too.
 *
 * board_turn is no step either. It is for a link that carries map tiles beside the board's frames, and says which of them
 * it sends next. Turns run in fours: in the first three a frame goes if one can be delivered without refusal, else a tile
 * if one waits; in the fourth the tile comes first. Frames are tried by console, then node, from after the one last
 * picked. `tile_waits` is 0 if no tile waits. The board is only read: a frame that is sent is to be delivered with
 * board_deliver. `turn` has TURN_WORDS words:
 *
 *   turn[0], turn[1], turn[2]  the picker's place in the four, from 0, and the console and node last picked. It begins with
 *                              TURN_START, and each call puts the next state there. Any other words may be there:
 *                              a state that is out of range for the board's n and m counts as the start
 *   turn[3]  what is sent: LINK_NOTHING, LINK_TILE or LINK_FRAME
 *   turn[4]  0, or 1 if the board is not well formed: then nothing is sent, and the state stays as it is
 *   turn[5], turn[6]  the frame's console and node, if one is sent; else 0
 *
 * shift_check has no board. It checks the record of a shift: `records` are operations that consoles made, in any order, and
 * it says whether they are in order, or which is the earliest in the list that is at fault and by which rule:
 *
 *   RULE_SHARED_TAG      no two writes share a tag
 *   RULE_NO_SUCH_WRITE   each read's tag and value are those of a listed write, or tag zero with value 0
 *   RULE_TAG_TOO_LOW     whenever one operation's end comes before another's begin, the later has no lower tag, and a
 *                        higher one if it wrote
 *
 * Places grow with time, as the numbers of steps do, from 1; the end is 0 while an operation is unfinished, and then
 * before nothing. More than 256 records are refused with 17; then with 18 a record whose end is not 0 and not after its
 * begin, whose tag is that of no board of 8 consoles, or that is a write with ts 0. The record's own console is not judged.
 *
 * Another call returns 0 if the steps were put to the board, refused or not, or the preview or the turn was given. If `words`
 * is shorter than a board it returns 1, if `said` is shorter than the answers or `turn` than a turn it returns 2, if
 * `steps_len` is no multiple of STEP_WORDS it returns 3, and then nothing is written. Lengths are in words; memory
 * beyond a board, or beyond the answers, is never written. The pointers must be valid for their lengths, the lent
 * memories must not overlap, and nobody else may touch them during the call.
 *
 * Any words whatever may be lent: if no board is written as they are, or it is not well formed, every step but a fresh
 * is refused with 1, and nothing is written; a preview and a turn say the same. So a flipped bit is refused unless it
 * makes the words of another well-formed board. The words of a board are
 *
 *   0, 1     n and m
 *   2        the release, 1 or 2
 *   3        the version of this layout, BOARD_LAYOUT
 *   4 on     four for each of 5 nodes: up (1; 0 is down), ts, owner, value
 *   24 on    eight for each of 8 consoles: state (0 idle, 1 asking to read, 2 asking to write, 3 telling to read, 4
 *            telling to write, 5 down), wanted value, answered set (bit k is node k), best ts, best owner, best value,
 *            the mark 'all alike so far' (0 or 1; it is on from the first answer of an asking while every answer has
 *            carried one tag), the console's own life
 *   88 on    four for each of 40 cells, at console times 5 plus node: frame (0 nothing, 1 ask, 2 reply, 3 put, 4 ack),
 *            ts, owner, value; the last three are 0 but for a reply and a put
 *
 * The owner of a tag is its console times 65536 plus its life.
 *
 * Any other number in the place of a release, the version, an up, a state, a mark or a frame, a set above 255, a
 * console's own life above 65535, and anything but 0 beside a frame without a tag make them no board's. Version 1 of
 * the layout, without lives, has 239 words: they are shorter than a board, so every call returns 1. */
#ifndef BOARD_H
#define BOARD_H

#include <stddef.h>
#include <stdint.h>

#define BOARD_WORDS (4 + 5 * 4 + 8 * 8 + 40 * 4)
#define BOARD_LAYOUT 2
#define ANSWER_WORDS 7
#define STEP_WORDS 3
#define TURN_WORDS 7
#define TURN_START {0, UINT32_MAX, UINT32_MAX}
#define NO_RECORD SIZE_MAX

enum {
    STEP_FRESH,
    STEP_BEGIN_READ,
    STEP_BEGIN_WRITE,
    STEP_DELIVER,
    STEP_NODE_DOWN,
    STEP_CONSOLE_DOWN,
    STEP_NODE_UP,
    STEP_RESTART
};

enum {
    LINK_NOTHING,
    LINK_TILE,
    LINK_FRAME
};

enum {
    RULE_SHARED_TAG = 1,
    RULE_NO_SUCH_WRITE,
    RULE_TAG_TOO_LOW
};

/* An operation of a shift. */
struct shift_record {
    uint32_t console;
    uint32_t write; /* 0 if it read, any other number if it wrote */
    uint32_t begin;
    uint32_t end;
    uint32_t ts;
    uint32_t tag_console;
    uint32_t life;
    uint32_t value;
};

/* What shift_check says. */
struct shift_verdict {
    uint32_t refusal; /* 17, 18, or 0 */
    uint32_t rule;    /* the rule that puts a record at fault, or 0: they are in order, or refused */
    size_t record;    /* the place of the record at fault in the list, from 0; else 0 */
    size_t other;     /* the record that it is against: of the first and third rule the first before it in the list with which it
                         breaks the rule, of the second the first write of its tag, which has another value; else NO_RECORD */
};

#ifdef __cplusplus
extern "C" {
#endif

uint32_t board_fresh(uint32_t *words, size_t words_len, uint32_t *said, size_t said_len, uint32_t n, uint32_t m);
uint32_t board_fresh_release_2(uint32_t *words, size_t words_len, uint32_t *said, size_t said_len, uint32_t n, uint32_t m);
uint32_t board_begin_read(uint32_t *words, size_t words_len, uint32_t *said, size_t said_len, uint32_t console);
uint32_t board_begin_write(uint32_t *words, size_t words_len, uint32_t *said, size_t said_len, uint32_t console, uint32_t value);
uint32_t board_deliver(uint32_t *words, size_t words_len, uint32_t *said, size_t said_len, uint32_t console, uint32_t node);
uint32_t board_node_down(uint32_t *words, size_t words_len, uint32_t *said, size_t said_len, uint32_t node);
uint32_t board_console_down(uint32_t *words, size_t words_len, uint32_t *said, size_t said_len, uint32_t console);
uint32_t board_node_up(uint32_t *words, size_t words_len, uint32_t *said, size_t said_len, uint32_t node);
uint32_t board_restart(uint32_t *words, size_t words_len, uint32_t *said, size_t said_len, uint32_t console);
uint32_t board_preview(const uint32_t *words, size_t words_len, uint32_t *said, size_t said_len, uint32_t console, uint32_t node);
uint32_t board_turn(const uint32_t *words, size_t words_len, uint32_t *turn, size_t turn_len, uint32_t tile_waits);
uint32_t board_run(uint32_t *words, size_t words_len, const uint32_t *steps, size_t steps_len, uint32_t *said, size_t said_len);
struct shift_verdict shift_check(const struct shift_record *records, size_t records_len);

#ifdef __cplusplus
}
#endif

#endif
