/* The library as a program in C sees it: include/retimer.h against the bench cards of document 01, and refusals that leave what is lent. */
#include "retimer.h"

#include <stdio.h>
#include <string.h>

static int failures = 0;

static void check(int holds, const char *what) {
    if (!holds) {
        printf("FAILED: %s\n", what);
        failures++;
    }
}

#define CHECK(condition) check((condition), #condition)

static const char CARD_A[] = "0100016400040003\n"
                             "020000\n020301\n020301\n020100\n"
                             "03000000010100000001\n03000100020000000000\n03000200030100000000\n";

static const char CARD_A_RETIMED[] = "0100016400040003\n"
                                     "020000\n020301\n020301\n020100\n"
                                     "03000000010000000000\n03000100020100000000\n03000200030100000000\n";

/* Card D: the outputs' registers want different values of one buffer. */
static const char CARD_D[] = "0100016400050004\n"
                             "020000\n020201\n020201\n020100\n020100\n"
                             "03000000010000000000\n03000100020000000000\n"
                             "03000200030100000000\n03000200040100000001\n";

/* Card F with its buffers of delay 255, at derate 250: a chain of two. */
static const char SLOW_F[] = "010001FA00040003\n"
                             "020000\n0202FF\n0202FF\n020100\n"
                             "03000000010000000000\n03000100020000000000\n03000200030000000000\n";

/* Card H: an input and a one-register loop into an XOR. */
static const char CARD_H[] = "0100016400030003\n"
                             "020000\n020601\n020100\n"
                             "03000000010000000000\n03000100010100000000\n03000100020000000000\n";

/* Card S: three inputs, each with a buffer, into a selector, register 1, output. */
static const char CARD_S[] = "0100016400080007\n"
                             "020000\n020000\n020000\n020201\n020201\n020201\n020A01\n020100\n"
                             "03000000030000000000\n03000100040000000000\n03000200050000000000\n"
                             "03000300060000000000\n03000400060000000000\n03000500060000000000\n03000600070100000001\n";

static const char CARD_S_RETIMED[] = "0100016400080007\n"
                                     "020000\n020000\n020000\n020201\n020201\n020201\n020A01\n020100\n"
                                     "03000000030000000000\n03000100040000000000\n03000200050000000000\n"
                                     "03000300060100000000\n03000400060100000001\n03000500060100000000\n03000600070000000000\n";

static const uint8_t H_VECTORS[] = {1, 0, 1, 1};
static const uint8_t H_OUTPUTS[] = {1, 1, 0, 1};

static const uint8_t *bytes(const char *text) { return (const uint8_t *)text; }

static int refused(retimer_answer answer, unsigned number, unsigned kind, unsigned place) {
    return RETIMER_REFUSED(answer) && RETIMER_NUMBER(answer) == number && RETIMER_PLACE_KIND(answer) == kind &&
           RETIMER_PLACE(answer) == place;
}

static int all(const void *lent, uint8_t byte, size_t len) {
    const uint8_t *at = lent;
    for (size_t i = 0; i < len; i++) {
        if (at[i] != byte) {
            return 0;
        }
    }
    return 1;
}

static void reading(void) {
    static struct retimer_netlist net, before;
    memset(&net, 0xA5, sizeof net);
    before = net;
    CHECK(refused(retimer_read(bytes(""), 0, &net), 1, RETIMER_LINE, 1));
    CHECK(memcmp(&net, &before, sizeof net) == 0);
    /* a letter for a digit on line 3 */
    char damaged[sizeof CARD_A];
    memcpy(damaged, CARD_A, sizeof CARD_A);
    damaged[17 + 7 + 4] = 'O';
    CHECK(refused(retimer_read(bytes(damaged), strlen(damaged), &net), 1, RETIMER_LINE, 3));
    CHECK(memcmp(&net, &before, sizeof net) == 0);

    CHECK(retimer_read(bytes(CARD_A), strlen(CARD_A), &net) == 0);
    CHECK(net.period == 1 && net.derate == 100 && net.nodes == 4 && net.edges == 3);
    CHECK(net.kind[1] == 3 && net.delay[1] == 1 && net.kind[3] == 1);
    CHECK(net.from[2] == 2 && net.to[2] == 3 && net.count[0] == 1 && net.start[0] == 1);
    CHECK(all(net.kind + 4, 0, sizeof net.kind - 4) && all(net.start + 3, 0, sizeof net.start - 3 * sizeof *net.start));

    /* a record that was read is left by a refusal */
    before = net;
    CHECK(refused(retimer_read(bytes(damaged), strlen(damaged), &net), 1, RETIMER_LINE, 3));
    CHECK(memcmp(&net, &before, sizeof net) == 0);
}

static void checking_and_writing(void) {
    static struct retimer_netlist net;
    uint8_t out[sizeof CARD_A + 8];
    size_t len = strlen(CARD_A);
    CHECK(retimer_read(bytes(CARD_A), len, &net) == 0);
    CHECK(retimer_check(&net) == 0);

    memset(out, 0x5A, sizeof out);
    CHECK(refused(retimer_write(&net, out, len - 1), 12, RETIMER_WHOLE, 0));
    CHECK(all(out, 0x5A, sizeof out));
    CHECK(retimer_write(&net, out, sizeof out) == len);
    CHECK(memcmp(out, CARD_A, len) == 0 && all(out + len, 0x5A, sizeof out - len));

    memset(out, 0x5A, sizeof out);
    net.derate = 49;
    CHECK(refused(retimer_check(&net), 2, RETIMER_LINE, 1));
    CHECK(refused(retimer_write(&net, out, sizeof out), 2, RETIMER_LINE, 1));
    net.derate = 100;
    net.count[2] = 33;
    CHECK(refused(retimer_check(&net), 4, RETIMER_LINE, 8));
    net.count[2] = 1;
    net.kind[2] = 4;
    CHECK(refused(retimer_check(&net), 5, RETIMER_NODE, 2));
    CHECK(refused(retimer_write(&net, out, sizeof out), 5, RETIMER_NODE, 2));
    net.kind[2] = 10;
    CHECK(refused(retimer_check(&net), 5, RETIMER_NODE, 2));
    net.kind[2] = 11;
    CHECK(refused(retimer_check(&net), 3, RETIMER_LINE, 4));
    CHECK(all(out, 0x5A, sizeof out));

    memset(out, 0x5A, sizeof out);
    CHECK(retimer_reread(bytes(CARD_A), len, out, sizeof out) == len);
    CHECK(memcmp(out, CARD_A, len) == 0 && all(out + len, 0x5A, sizeof out - len));
}

static void stepping(void) {
    static struct retimer_netlist net;
    static struct retimer_machine machine, before;
    CHECK(retimer_read(bytes(CARD_H), strlen(CARD_H), &net) == 0);
    memset(&machine, 0xA5, sizeof machine);
    memcpy(machine.words, net.start, net.edges * sizeof *net.start);
    for (size_t clock = 0; clock < sizeof H_VECTORS; clock++) {
        uint8_t out[2] = {7, 7};
        CHECK(retimer_step(&net, &machine, H_VECTORS + clock, 1, out, 2) == 1);
        CHECK(out[0] == H_OUTPUTS[clock] && out[1] == 7);
        CHECK(machine.words[0] == 0 && machine.words[1] == H_OUTPUTS[clock] && machine.words[2] == 0);
    }
    CHECK(all(machine.words + 3, 0xA5, sizeof machine.words - 3 * sizeof *machine.words));

    uint8_t out[1] = {7};
    const uint8_t two[] = {2};
    before = machine;
    CHECK(refused(retimer_step(&net, &machine, two, 1, out, 1), 13, RETIMER_WHOLE, 0));
    CHECK(refused(retimer_step(&net, &machine, H_VECTORS, 2, out, 1), 13, RETIMER_WHOLE, 0));
    CHECK(refused(retimer_step(&net, &machine, H_VECTORS, 1, out, 0), 12, RETIMER_WHOLE, 0));
    CHECK(memcmp(&machine, &before, sizeof machine) == 0 && out[0] == 7);
    /* a bit above the count of edge 1 */
    machine.words[1] = 2;
    before = machine;
    CHECK(refused(retimer_step(&net, &machine, H_VECTORS, 1, out, 1), 13, RETIMER_WHOLE, 0));
    CHECK(memcmp(&machine, &before, sizeof machine) == 0 && out[0] == 7);
}

static void running(void) {
    uint8_t out[6];
    memset(out, 7, sizeof out);
    CHECK(retimer_run(bytes(CARD_H), strlen(CARD_H), H_VECTORS, sizeof H_VECTORS, out, sizeof out) == 4);
    CHECK(memcmp(out, H_OUTPUTS, sizeof H_OUTPUTS) == 0 && all(out + 4, 7, 2));
    memset(out, 7, sizeof out);
    CHECK(retimer_run(bytes(CARD_H), strlen(CARD_H), H_VECTORS, 0, out, sizeof out) == 0);
    CHECK(refused(retimer_run(bytes(CARD_H), strlen(CARD_H), H_VECTORS, sizeof H_VECTORS, out, 3), 12, RETIMER_WHOLE, 0));
    CHECK(all(out, 7, sizeof out));
}

static void retiming(void) {
    uint8_t out[sizeof CARD_D + 8];
    int32_t lags[6];
    size_t len = strlen(CARD_A);
    memset(out, 0x5A, sizeof out);
    memset(lags, 0x5A, sizeof lags);
    CHECK(retimer_retime(bytes(CARD_A), len, out, sizeof out, lags, 6) == 0);
    CHECK(memcmp(out, CARD_A_RETIMED, len) == 0 && all(out + len, 0x5A, sizeof out - len));
    CHECK(lags[0] == 0 && lags[1] == -1 && lags[2] == 0 && lags[3] == 0);
    CHECK(all(lags + 4, 0x5A, 2 * sizeof *lags));

    memset(out, 0x5A, sizeof out);
    memset(lags, 0x5A, sizeof lags);
    CHECK(refused(retimer_retime(bytes(CARD_D), strlen(CARD_D), out, sizeof out, lags, 6), 11, RETIMER_WHOLE, 0));
    CHECK(refused(retimer_retime(bytes(CARD_D), strlen(CARD_D), out, sizeof out, lags, 4), 12, RETIMER_WHOLE, 0));
    CHECK(refused(retimer_retime(bytes(CARD_A), len - 1, out, sizeof out, lags, 6), 1, RETIMER_LINE, 8));
    CHECK(all(out, 0x5A, sizeof out) && all(lags, 0x5A, sizeof lags));
}

/* A selector: every row of inputs, its edges turned, and a start that is chosen for it. */
static void selecting(void) {
    static struct retimer_netlist net;
    uint8_t text[sizeof CARD_S], vectors[9 * 3] = {0}, out[9];
    int32_t lags[8];
    size_t len = strlen(CARD_S);
    const uint8_t shown[] = {1, 0, 0, 1, 1, 0, 1, 0, 1}; /* the register, then 000 to 111 */
    const uint8_t turned[] = {1, 0, 0, 0, 1, 1, 0, 1, 1};
    for (unsigned i = 0; i < 8 * 3; i++) {
        vectors[i] = (uint8_t)((i / 3) >> (2 - i % 3) & 1);
    }
    CHECK(retimer_run(bytes(CARD_S), len, vectors, sizeof vectors, out, sizeof out) == sizeof out);
    CHECK(memcmp(out, shown, sizeof out) == 0);
    CHECK(retimer_retime(bytes(CARD_S), len, text, sizeof text, lags, 8) == 3);
    CHECK(memcmp(text, CARD_S_RETIMED, len) == 0 && lags[6] == 1 && all(lags, 0, 6 * sizeof *lags) && lags[7] == 0);
    CHECK(retimer_run(text, len, vectors, sizeof vectors, out, sizeof out) == sizeof out);
    CHECK(memcmp(out, shown, sizeof out) == 0);

    /* select from the third input, the lowest edge; first and second from the others */
    CHECK(retimer_read(bytes(CARD_S), len, &net) == 0);
    net.from[3] = 5;
    net.from[4] = 3;
    net.from[5] = 4;
    CHECK(retimer_write(&net, text, sizeof text) == len);
    CHECK(retimer_run(text, len, vectors, sizeof vectors, out, sizeof out) == sizeof out);
    CHECK(memcmp(out, turned, sizeof out) == 0);
}

static int figures_are(struct retimer_figures figures, uint32_t registers, uint32_t largest, uint32_t number) {
    return figures.registers == registers && figures.largest == largest && figures.number == number;
}

static void quoting(void) {
    struct retimer_figures figures;
    memset(&figures, 0x5A, sizeof figures);
    CHECK(refused(retimer_quote(bytes(""), 0, &figures), 1, RETIMER_LINE, 1));
    CHECK(refused(retimer_quote(bytes(CARD_A), strlen(CARD_A) - 1, &figures), 1, RETIMER_LINE, 8));
    CHECK(all(&figures, 0x5A, sizeof figures));

    CHECK(retimer_quote(bytes(CARD_A), strlen(CARD_A), &figures) == 1);
    CHECK(figures_are(figures, 2, 1, 0));
    /* retiming refuses card D 11, and SLOW_F 8 at its head's period */
    CHECK(retimer_quote(bytes(CARD_D), strlen(CARD_D), &figures) == 1);
    CHECK(figures_are(figures, 1, 1, 1));
    CHECK(retimer_quote(bytes(CARD_S), strlen(CARD_S), &figures) == 1);
    CHECK(figures_are(figures, 3, 1, 3));
    CHECK(retimer_quote(bytes(SLOW_F), strlen(SLOW_F), &figures) == 2 * 638);
    CHECK(figures_are(figures, 0, 0, 0));

    /* 103 such buffers: no retiming meets 65,535 */
    enum { GATES = 103 };
    char text[17 + 7 * (GATES + 2) + 21 * (GATES + 1) + 1];
    char *end = text + sprintf(text, "010001FA%04X%04X\n020000\n", GATES + 2u, GATES + 1u);
    for (unsigned v = 0; v < GATES; v++) {
        end += sprintf(end, "0202FF\n");
    }
    end += sprintf(end, "020100\n");
    for (unsigned v = 0; v <= GATES; v++) {
        end += sprintf(end, "03%04X%04X0000000000\n", v, v + 1);
    }
    memset(&figures, 0x5A, sizeof figures);
    CHECK(refused(retimer_quote(bytes(text), (size_t)(end - text), &figures), 8, RETIMER_WHOLE, 0));
    CHECK(all(&figures, 0x5A, sizeof figures));
}

static int words_are(const uint32_t *table, size_t words, const uint32_t *wanted) {
    return memcmp(table, wanted, words * sizeof *table) == 0;
}

/* "A second chip lets branches of one node share registers." */
static void counting_rails(void) {
    uint32_t table[8];
    memset(table, 0x5A, sizeof table);
    CHECK(refused(retimer_rails(bytes(""), 0, table, 8), 1, RETIMER_LINE, 1));
    CHECK(refused(retimer_rails(bytes(CARD_A), strlen(CARD_A) - 1, table, 0), 1, RETIMER_LINE, 8));
    CHECK(refused(retimer_rails(bytes(CARD_D), strlen(CARD_D), table, 0), 12, RETIMER_WHOLE, 0));
    CHECK(refused(retimer_rails(bytes(CARD_D), strlen(CARD_D), table, 4), 12, RETIMER_WHOLE, 0));
    CHECK(all(table, 0x5A, sizeof table));

    /* the second buffer of card D feeds two registers with different values; words past the nodes stay */
    CHECK(retimer_rails(bytes(CARD_D), strlen(CARD_D), table, 8) == 2);
    CHECK(words_are(table, 8, (uint32_t[8]){0, 0, 2, 0, 0, 0x5A5A5A5A, 0x5A5A5A5A, 0x5A5A5A5A}));
    CHECK(retimer_rails(bytes(CARD_A), strlen(CARD_A), table, 4) == 2);
    CHECK(words_are(table, 8, (uint32_t[8]){1, 0, 1, 0, 0, 0x5A5A5A5A, 0x5A5A5A5A, 0x5A5A5A5A}));

    /* two branches of an input, of 32 registers, which differ at bit 0 alone, the farthest; at bit 31 alone, the nearest */
    static const char *const branches[3] = {"2000000001", "2080000000", "1F00000000"};
    static const uint64_t totals[3] = {33, 64, 32};
    for (int i = 0; i < 3; i++) {
        char text[256];
        int len = sprintf(text, "0100016400030002\n020000\n020100\n020100\n03000000012000000000\n0300000002%s\n", branches[i]);
        memset(table, 0x5A, sizeof table);
        CHECK(retimer_rails(bytes(text), (size_t)len, table, 3) == totals[i]);
        CHECK(words_are(table, 4, (uint32_t[4]){(uint32_t)totals[i], 0, 0, 0x5A5A5A5A}));
    }

    /* a retimed text, like any other */
    char moved[sizeof CARD_A];
    int32_t lags[4];
    CHECK(retimer_retime(bytes(CARD_A), strlen(CARD_A), (uint8_t *)moved, strlen(CARD_A), lags, 4) == 0);
    CHECK(retimer_rails(bytes(moved), strlen(CARD_A), table, 4) == 2);
    CHECK(words_are(table, 4, (uint32_t[4]){0, 1, 1, 0}));
}

int main(void) {
    reading();
    checking_and_writing();
    stepping();
    running();
    retiming();
    selecting();
    quoting();
    counting_rails();
    if (failures == 0) {
        puts("all as document 01 says");
    }
    return failures != 0;
}
