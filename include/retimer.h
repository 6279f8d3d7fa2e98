/* The tank-netlist retimer, for programs in C: link with crates/retimer/out/libretimer.a, which `rt lib` proves and writes in crates/retimer.
 *
 * Every call is proved to do what crates/retimer/specs/Calls says of it, for any text, record, vector and buffer. A call that refuses
 * gives the rule's number and its place, and leaves every lent record and buffer as it was.
 *
 * A pointer is followed by how many elements it leads to. What a call writes overlaps nothing else that is lent to it. */
#ifndef RETIMER_H
#define RETIMER_H

#include <stddef.h>
#include <stdint.h>

#ifdef __cplusplus
extern "C" {
#endif

enum { RETIMER_NODES = 512, RETIMER_EDGES = 1024 };

/* A netlist: its head, its first `nodes` nodes and its first `edges` edges. The rows past them are read by nothing. */
struct retimer_netlist {
    uint16_t period;
    uint8_t derate; /* in percent */
    uint16_t nodes;
    uint16_t edges;
    /* 0 input, 1 output, 2 buffer, 3 inverter, 4 AND, 5 OR, 6 XOR, 7 NAND, 8 NOR, 9 XNOR, 10 selector: its three in-edges are, in the
     * order of edges, select, first, second, and it gives the first when select is 0, the second when it is 1 */
    uint8_t kind[RETIMER_NODES];
    uint8_t delay[RETIMER_NODES];
    uint16_t from[RETIMER_EDGES]; /* the node that the edge leaves */
    uint16_t to[RETIMER_EDGES];   /* the node that it enters */
    uint8_t count[RETIMER_EDGES]; /* its registers */
    uint32_t start[RETIMER_EDGES]; /* their start values: bit k is what the entered node sees at clock k */
};

/* A netlist at some clock: one word per edge, laid out as start values. Words past the netlist's edges are neither read nor changed. */
struct retimer_machine {
    uint32_t words[RETIMER_EDGES];
};

/* What the least retiming at the period of a quote comes to. */
struct retimer_figures {
    uint32_t registers; /* the register total */
    uint32_t largest;   /* the largest count on an edge; above 32 retiming at that period is refused 9 */
    uint32_t number;    /* how many start values are to be chosen; above 24 it is refused 10, if not 9 */
};

/* An answer is the number that its call names, or a refusal: the number of a rule and a place. */
typedef uint64_t retimer_answer;

enum { RETIMER_WHOLE = 0, RETIMER_LINE = 1, RETIMER_NODE = 2, RETIMER_EDGE = 3 };

#define RETIMER_REFUSED(answer) (((answer) >> 63) != 0)
/* Of a refusal: the rule's number, 1 to 13. */
#define RETIMER_NUMBER(answer) ((unsigned)(((answer) >> 32) & 0xFFu))
/* Of a refusal: RETIMER_WHOLE, RETIMER_LINE, RETIMER_NODE or RETIMER_EDGE. */
#define RETIMER_PLACE_KIND(answer) ((unsigned)(((answer) >> 16) & 0xFFFFu))
/* Of a refusal: the line, counted from 1, the node or the edge, counted from 0; 0 for the whole. */
#define RETIMER_PLACE(answer) ((unsigned)((answer) & 0xFFFFu))

/* Reads a text into `net`; the record's rows past the text's nodes and edges become 0.
 * Gives 0. Refuses with 1 to 7. */
retimer_answer retimer_read(const uint8_t *text, size_t text_len, struct retimer_netlist *net);

/* Checks a record as if its lines were read.
 * Gives 0. Refuses with 2 to 7. */
retimer_answer retimer_check(const struct retimer_netlist *net);

/* Writes a record's text at the front of `out`.
 * Gives how many bytes it wrote. Refuses with 2 to 7, then 12. */
retimer_answer retimer_write(const struct retimer_netlist *net, uint8_t *out, size_t out_len);

/* One clock: `vector` has one byte, 0 or 1, for each input in node order; `machine` becomes the machine after the clock, and one byte
 * for each output goes to the front of `out`.
 * Gives the number of outputs. Refuses with 2 to 7, then 13, 12. */
retimer_answer retimer_step(const struct retimer_netlist *net, struct retimer_machine *machine,
                            const uint8_t *vector, size_t vector_len, uint8_t *out, size_t out_len);

/* Runs a text from its start values, one clock for each of the vectors, which follow one another; so do the outputs in `out`.
 * Gives how many bytes it wrote. Refuses with 1 to 7, then 13, 12. */
retimer_answer retimer_run(const uint8_t *text, size_t text_len, const uint8_t *vectors, size_t vectors_len,
                           uint8_t *out, size_t out_len);

/* Moves a text's registers by the least lags that meet its period. The new text, as long as the old one, goes to the front of `out`,
 * and each node's lag, in node order, to the front of `lags`.
 * Gives how many start values were chosen. Refuses with 1 to 7, then 12, 8 to 11. */
retimer_answer retimer_retime(const uint8_t *text, size_t text_len, uint8_t *out, size_t out_len,
                              int32_t *lags, size_t lags_len);

/* Finds the smallest period that retiming would not refuse 8, whatever the period in the text's own head, and puts into `figures` what
 * the least retiming at that period comes to. No start is sought and no text is written.
 * Gives the period, 1 to 65,535. Refuses with 1 to 7, then 8 where 65,535 would be refused 8. */
retimer_answer retimer_quote(const uint8_t *text, size_t text_len, struct retimer_figures *figures);

/* Counts a text's rails: a chip whose branches of one node share registers pays at that node once for each different run of start
 * values, read from the node outward. Each node's rails, in node order, go to the front of `table`, one word a node.
 * Gives their total. Refuses with 1 to 7, then 12. */
retimer_answer retimer_rails(const uint8_t *text, size_t text_len, uint32_t *table, size_t table_len);

/* Reads a text and writes it again at the front of `out`.
 * Gives how many bytes it wrote. Refuses with 1 to 7, then 12. */
retimer_answer retimer_reread(const uint8_t *text, size_t text_len, uint8_t *out, size_t out_len);

#ifdef __cplusplus
}
#endif

#endif
