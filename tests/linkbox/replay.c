/* replay.c: a box driven from C. It reads a run of calls on standard input and prints one line for each, as the proved program `replay` does, but makes
 * every call through linkbox.h and the static library. `run`, beside it, compares the two. What a run of calls is stands in crates/replay. */
#include "said.h"

/* C lets this be declared without its header. */
int getchar(void);

/* The longest call behind its length, the largest buffer, a state's and a session's octets. */
enum { MOST = 2000, ROOM = 1600, SETTINGS = 81, STATE = 194, SESSION = 37, LINE = 20, STAMP = 8 };

/* What is held from call to call. */
struct held {
    struct linkbox box;
    struct linkbox_session session;
    uint8_t buffer[ROOM];
};

/* Octets that are still to be read. */
struct rest {
    const uint8_t *at;
    size_t left;
};

/* A call: its number, what follows it in the body, and how much of the buffer it hands over. */
struct call {
    uint32_t number;
    struct rest body;
    size_t room;
};

/* What a call's body is: its shortest and longest length, and the place of the buffer's length in it, or NO_BUFFER. */
struct shape {
    uint32_t number;
    size_t least;
    size_t most;
    size_t buffer_at;
};

enum { NO_BUFFER = MOST };

static const struct shape SHAPES[] = {
    {257, SETTINGS, SETTINGS, NO_BUFFER},
    {258, 3 + 2 * STAMP, MOST, 1},
    {259, 2, 2, 0},
    {260, 0, 0, NO_BUFFER},
    {261, 2, 2, 0},
    {262, 2 + STAMP, 2 + STAMP, 0},
    {263, STATE, STATE, NO_BUFFER},
    {264, 0, 0, NO_BUFFER},
    {265, 1, MOST, NO_BUFFER},
    {266, SESSION, SESSION, NO_BUFFER},
    {267, 16, 16, NO_BUFFER},
    {268, 0, MOST, NO_BUFFER},
    {269, 2 + SETTINGS, 2 + SETTINGS, 0},
    {270, 0, MOST, NO_BUFFER},
    {271, 2 + LINE, 2 + LINE, 0},
    {272, 0, 0, NO_BUFFER},
};

/* ── words of a line ── */

/* A space, then a number in decimal with its sign. */
static void print_number(int64_t number) {
    putchar(' ');
    if (number < 0) {
        putchar('-');
        print_decimal(0 - (uint64_t)number);
    } else {
        print_decimal((uint64_t)number);
    }
}

/* A word and a number behind it. */
static void print_said(const char *word, int64_t number) {
    print_text(word);
    print_number(number);
}

/* An octet in hex. */
static void print_octet(uint32_t octet) {
    static const char HEX[] = "0123456789abcdef";
    putchar(HEX[octet / 16 % 16]);
    putchar(HEX[octet % 16]);
}

/* A number as octets in hex, the lowest first. */
static void print_little(uint64_t number, size_t octets) {
    for (size_t i = 0; i < octets; i++) {
        print_octet((uint32_t)(number % 256));
        number /= 256;
    }
}

/* Octets in hex as they stand. */
static void print_octets(const uint8_t *octets, size_t count) {
    for (size_t i = 0; i < count; i++) print_octet(octets[i]);
}

/* Octets in hex, or `-` for none. */
static void print_part(const uint8_t *octets, size_t count) {
    if (count == 0) putchar('-');
    print_octets(octets, count);
}

/* ── fields of a body ── */

/* The next number of a body, lowest octet first; 0 where the body is too short. */
static uint64_t take(struct rest *body, size_t octets) {
    uint64_t number = 0;
    if (octets > sizeof number || body->left < octets) return 0;
    for (size_t i = octets; i > 0; i--) number = number * 256 + body->at[i - 1];
    body->at += octets;
    body->left -= octets;
    return number;
}

/* The next word. */
static uint32_t take_word(struct rest *body, size_t octets) {
    return (uint32_t)(take(body, octets) & 0xffffffffu);
}

/* The next number of eight octets in two's complement. */
static int64_t take_signed(struct rest *body) {
    uint64_t number = take(body, 8);
    return number <= INT64_MAX ? (int64_t)number : -(int64_t)(~number) - 1;
}

/* The next octets as they stand; none where the body is too short. */
static void take_octets(struct rest *body, uint8_t *into, size_t octets) {
    for (size_t i = 0; i < octets; i++) into[i] = (uint8_t)take(body, 1);
}

/* The next stamp. */
static struct linkbox_stamp take_stamp(struct rest *body) {
    struct linkbox_stamp stamp;
    stamp.seconds = take_word(body, 4);
    stamp.nanoseconds = take_word(body, 4);
    return stamp;
}

/* Settings, as they stand in a record's body. */
static struct linkbox_settings take_settings(struct rest *body) {
    struct linkbox_settings settings;
    settings.level = take_word(body, 1);
    settings.mep_id = take_word(body, 2);
    take_octets(body, settings.own_address, LINKBOX_LEN_ADDRESS);
    settings.period = take_word(body, 1);
    take_octets(body, settings.meg_id, LINKBOX_LEN_MEG_ID);
    take_octets(body, settings.loss_peer, LINKBOX_LEN_ADDRESS);
    settings.peers = take_word(body, 1);
    for (size_t i = 0; i < LINKBOX_LEN_PEERS; i++) settings.peer_ids[i] = take_word(body, 2);
    return settings;
}

/* The running words of a state, in the order in which a state is put and shown. */
static const size_t RUNNING[] = {LINKBOX_AT_MISMERGE, LINKBOX_AT_UNEXPECTED_MEP, LINKBOX_AT_UNEXPECTED_PERIOD, LINKBOX_AT_UNEXPECTED_LEVEL,
                                 LINKBOX_AT_AIS,      LINKBOX_AT_LCK,            LINKBOX_AT_NEXT};

enum { RUNNING_COUNT = sizeof RUNNING / sizeof RUNNING[0] };

/* The four readings of a state's session. */
static const size_t READING[] = {LINKBOX_AT_TXFCF, LINKBOX_AT_RXFCF, LINKBOX_AT_TXFCB, LINKBOX_AT_OURS};

enum { READING_COUNT = sizeof READING / sizeof READING[0] };

/* A state. Its settings lie at its front. */
static void take_state(struct rest *body, struct linkbox *box) {
    const struct linkbox_settings settings = take_settings(body);
    linkbox_raw_copy(box, &settings, sizeof settings);
    box->run[LINKBOX_AT_SENT] = take_word(body, 4);
    box->run[LINKBOX_AT_RECEIVED] = take_word(body, 4);
    for (size_t i = 0; i < LINKBOX_LEN_PEERS; i++) box->timers[i] = take_word(body, 4);
    for (size_t i = 0; i < LINKBOX_LEN_PEERS; i++) box->rdi[i] = take_word(body, 1);
    for (size_t i = 0; i < RUNNING_COUNT; i++) box->run[RUNNING[i]] = take_word(body, 4);
    box->run[LINKBOX_AT_KEPT] = take_word(body, 1);
    for (size_t i = 0; i < READING_COUNT; i++) box->run[READING[i]] = take_word(body, 4);
    box->totals[LINKBOX_AT_NEAR] = take_signed(body);
    box->totals[LINKBOX_AT_FAR] = take_signed(body);
    box->run[LINKBOX_AT_INTERVALS] = take_word(body, 4);
}

/* Four readings. */
static struct linkbox_readings take_readings(struct rest *body) {
    struct linkbox_readings readings;
    readings.txf = take_word(body, 4);
    readings.rxf = take_word(body, 4);
    readings.txb = take_word(body, 4);
    readings.ours = take_word(body, 4);
    return readings;
}

/* ── states and sessions as octets ── */

/* Settings as they stand in a record's body. */
static void print_settings(const struct linkbox_settings *settings) {
    print_little(settings->level, 1);
    print_little(settings->mep_id, 2);
    print_octets(settings->own_address, LINKBOX_LEN_ADDRESS);
    print_little(settings->period, 1);
    print_octets(settings->meg_id, LINKBOX_LEN_MEG_ID);
    print_octets(settings->loss_peer, LINKBOX_LEN_ADDRESS);
    print_little(settings->peers, 1);
    for (size_t i = 0; i < LINKBOX_LEN_PEERS; i++) print_little(settings->peer_ids[i], 2);
}

/* A state. */
static void print_state(const struct linkbox *box) {
    const struct linkbox_settings settings = linkbox_settings_of(box);
    print_settings(&settings);
    print_little(box->run[LINKBOX_AT_SENT], 4);
    print_little(box->run[LINKBOX_AT_RECEIVED], 4);
    for (size_t i = 0; i < LINKBOX_LEN_PEERS; i++) print_little(box->timers[i], 4);
    for (size_t i = 0; i < LINKBOX_LEN_PEERS; i++) print_little(box->rdi[i], 1);
    for (size_t i = 0; i < RUNNING_COUNT; i++) print_little(box->run[RUNNING[i]], 4);
    print_little(box->run[LINKBOX_AT_KEPT], 1);
    for (size_t i = 0; i < READING_COUNT; i++) print_little(box->run[READING[i]], 4);
    print_little((uint64_t)box->totals[LINKBOX_AT_NEAR], 8);
    print_little((uint64_t)box->totals[LINKBOX_AT_FAR], 8);
    print_little(box->run[LINKBOX_AT_INTERVALS], 4);
}

/* A lent session. */
static void print_session(const struct linkbox_session *session) {
    print_little(session->kept, 1);
    print_little(session->last.txf, 4);
    print_little(session->last.rxf, 4);
    print_little(session->last.txb, 4);
    print_little(session->last.ours, 4);
    print_little((uint64_t)session->near_loss, 8);
    print_little((uint64_t)session->far_loss, 8);
    print_little(session->intervals, 4);
}

/* ── answers ── */

/* A refusal, where there is one. */
static int print_refused(uint32_t refusal) {
    if (refusal != 0) print_said("refused", refusal);
    return refusal != 0;
}

/* The number of a refusal, or the word for what was done. */
static void print_done(uint32_t refusal, const char *word) {
    if (!print_refused(refusal)) print_text(word);
}

/* The number of a refusal, or the length of what was written. */
static void print_sent(uint32_t refusal, size_t length) {
    if (!print_refused(refusal)) print_said("sent", (int64_t)length);
}

/* Near and far loss. */
static void print_losses(int64_t near, int64_t far) {
    print_said("loss", near);
    print_number(far);
}

/* What was done with a frame that was neither refused nor dropped. */
static void print_frame_done(const struct linkbox_frame_answer *told) {
    switch (told->done) {
    case LINKBOX_DONE_PASSED: print_text("passed"); break;
    case LINKBOX_DONE_TAKEN: print_text("taken"); break;
    case LINKBOX_DONE_REPLIED: print_said("replied", (int64_t)told->length); break;
    case LINKBOX_DONE_FIRST:
    case LINKBOX_DONE_LOSS: print_losses(told->near_loss, told->far_loss); break;
    case LINKBOX_DONE_TWO_WAY: print_said("delay", told->two_way); break;
    case LINKBOX_DONE_ALL_WAYS:
        print_said("delay", told->two_way);
        print_number(told->one_way_far);
        print_number(told->one_way_near);
        break;
    default: print_text("no such answer"); break;
    }
}

/* A peer's ID and the letters of what stands. */
static void print_peer(uint32_t id, uint32_t lost, uint32_t rdi) {
    print_number(id);
    putchar(':');
    if (lost != 0) putchar('L');
    if (rdi != 0) putchar('R');
    if (lost == 0 && rdi == 0) putchar('-');
}

/* A space and a condition's word, while it stands. */
static void print_condition(uint32_t stands, const char *word) {
    if (stands != 0) print_text(word);
}

/* What stands, peer by peer and then the others. */
static void print_conditions(const struct linkbox *box, const struct linkbox_conditions_answer *flags) {
    print_text("conditions");
    for (size_t i = 0; i < LINKBOX_LEN_PEERS && i < box->set[LINKBOX_AT_PEERS]; i++) print_peer(box->ids[i], flags->lost[i], flags->rdi[i]);
    print_condition(flags->mismerge, " mismerge");
    print_condition(flags->unexpected_mep, " mep");
    print_condition(flags->unexpected_period, " period");
    print_condition(flags->unexpected_level, " level");
    print_condition(flags->ais, " ais");
    print_condition(flags->lck, " lck");
}

/* ── calls ── */

/* The part of the buffer that a call hands over: no pointer where it is of no octets. */
static uint8_t *part(struct held *held, const struct call *call) {
    return call->room == 0 ? NULL : held->buffer;
}

/* Tells whether the call for a whole box gives the same number, and leaves the box that was handed out, or the one before where it refuses.
 */
static int box_follows(struct linkbox box, const struct linkbox_settings *settings, const struct linkbox_raw_new_box *made) {
    const struct linkbox before = box;
    if (linkbox_new_setting(&box, settings) != made->refusal) return 0;
    return same_octets(&box, made->refusal == 0 ? &made->box : &before, sizeof box);
}

/* 257: the box that is handed out becomes the held one, zeros where the setting is refused. */
static void new_setting(struct held *held, struct call *call) {
    const struct linkbox_settings settings = take_settings(&call->body);
    const struct linkbox_raw_new_box made =
        linkbox_raw_new_setting(linkbox_raw_set(&settings), linkbox_raw_names(&settings), settings.peer_ids);
    if (!box_follows(held->box, &settings, &made)) print_text("the call for a whole box differs: ");
    held->box = made.box;
    print_done(made.refusal, "set");
}

/* 258: side, stamps, and the rest is the frame. */
static void frame(struct held *held, struct call *call) {
    uint32_t side = take_word(&call->body, 1);
    take(&call->body, 2);
    struct linkbox_stamp receive = take_stamp(&call->body);
    struct linkbox_stamp transmit = take_stamp(&call->body);
    const uint8_t *octets = call->body.left == 0 ? NULL : call->body.at;
    struct linkbox_frame_answer told =
        linkbox_frame(&held->box, side, octets, call->body.left, receive, transmit, part(held, call), call->room);
    if (print_refused(told.refusal)) return;
    if (told.drop != 0) {
        print_said("dropped", told.drop);
        return;
    }
    print_frame_done(&told);
}

/* 259 */
static void tick(struct held *held, struct call *call) {
    struct linkbox_written told = linkbox_tick(&held->box, part(held, call), call->room);
    if (told.length != 0) {
        print_sent(told.refusal, told.length);
    } else {
        print_done(told.refusal, "ticked");
    }
}

/* 261 */
static void send_lmm(struct held *held, struct call *call) {
    struct linkbox_written told = linkbox_send_lmm(&held->box, part(held, call), call->room);
    print_sent(told.refusal, told.length);
}

/* 262 */
static void send_dmm(struct held *held, struct call *call) {
    take(&call->body, 2);
    struct linkbox_written told = linkbox_send_dmm(&held->box, take_stamp(&call->body), part(held, call), call->room);
    print_sent(told.refusal, told.length);
}

/* 263 */
static void put_state(struct held *held, struct call *call) {
    take_state(&call->body, &held->box);
    print_text("set");
}

/* 264 */
static void show_state(const struct held *held) {
    print_text("state ");
    print_state(&held->box);
}

/* 265 */
static void ask_tlv(struct call *call) {
    uint8_t kind = (uint8_t)take(&call->body, 1);
    struct linkbox_tlv_answer told = linkbox_tlv(call->body.at, call->body.left, kind);
    if (print_refused(told.refusal)) return;
    if (told.drop != 0) {
        print_said("dropped", told.drop);
    } else if (told.found == 0) {
        print_text("none");
    } else if (told.start > call->body.left || told.length > call->body.left - told.start) {
        print_text("a value outside the frame");
    } else {
        print_text("value ");
        print_part(call->body.at + told.start, told.length);
    }
}

/* 266 */
static void put_session(struct held *held, struct call *call) {
    held->session.kept = take_word(&call->body, 1);
    held->session.last = take_readings(&call->body);
    held->session.near_loss = take_signed(&call->body);
    held->session.far_loss = take_signed(&call->body);
    held->session.intervals = take_word(&call->body, 4);
    print_text("set");
}

/* 267 */
static void measure(struct held *held, struct call *call) {
    struct linkbox_readings now = take_readings(&call->body);
    struct linkbox_loss_answer told = linkbox_measure(&held->session, now.txf, now.rxf, now.txb, now.ours);
    if (print_refused(told.refusal)) return;
    print_losses(told.near_loss, told.far_loss);
    print_text(" session ");
    print_session(&held->session);
}

/* 268 */
static void read_settings(struct call *call) {
    struct linkbox_settings_answer read = linkbox_read_settings(call->body.at, call->body.left);
    if (print_refused(read.refusal)) return;
    print_text("settings ");
    print_settings(&read.settings);
}

/* 269 */
static void write_settings(struct held *held, struct call *call) {
    take(&call->body, 2);
    const struct linkbox_settings settings = take_settings(&call->body);
    struct linkbox_written told = linkbox_write_settings(part(held, call), call->room, &settings);
    print_sent(told.refusal, told.length);
}

/* 270 */
static void read_line(struct call *call) {
    struct linkbox_line_answer told = linkbox_read_line(call->body.at, call->body.left);
    if (print_refused(told.refusal)) return;
    print_said("line", told.intervals);
    print_number(told.near_loss);
    print_number(told.far_loss);
}

/* 271 */
static void write_line(struct held *held, struct call *call) {
    struct linkbox_line line;
    take(&call->body, 2);
    line.near_loss = take_signed(&call->body);
    line.far_loss = take_signed(&call->body);
    line.intervals = take_word(&call->body, 4);
    struct linkbox_written told = linkbox_write_line(held->buffer, call->room, line);
    print_sent(told.refusal, told.length);
}

/* 272 */
static void conditions(const struct held *held) {
    struct linkbox_conditions_answer told = linkbox_conditions(&held->box);
    if (!print_refused(told.refusal)) print_conditions(&held->box, &told);
}

/* The answer of a call, without what its line ends in. */
static void answer(struct held *held, struct call *call) {
    switch (call->number) {
    case 257: new_setting(held, call); break;
    case 258: frame(held, call); break;
    case 259: tick(held, call); break;
    case 260: print_done(linkbox_clear(&held->box), "cleared"); break;
    case 261: send_lmm(held, call); break;
    case 262: send_dmm(held, call); break;
    case 263: put_state(held, call); break;
    case 264: show_state(held); break;
    case 265: ask_tlv(call); break;
    case 266: put_session(held, call); break;
    case 267: measure(held, call); break;
    case 268: read_settings(call); break;
    case 269: write_settings(held, call); break;
    case 270: read_line(call); break;
    case 271: write_line(held, call); break;
    default: conditions(held); break;
    }
}

/* ── what is not recorded ── */

/* Tells whether the box's own loss line is that of its totals and intervals, and its ticks to the next CCM are its own word; in a box that
 * is not well formed the line is refused with 2 and the ticks are 0; and 23 octets are no room. */
static int line_follows(const struct linkbox *box) {
    uint8_t own[LINKBOX_LEN_LINE_RECORD] = {0}, wanted[LINKBOX_LEN_LINE_RECORD] = {0};
    const uint32_t refusal = linkbox_conditions(box).refusal;
    const struct linkbox_line line = {linkbox_near_total(box), linkbox_far_total(box), linkbox_intervals(box)};
    const uint32_t short_by_one = linkbox_loss_line(box, own, sizeof own - 1).refusal;
    if (short_by_one != (refusal != 0 ? refusal : LINKBOX_REFUSED_ROOM) || !same_octets(own, wanted, sizeof own)) return 0;
    const struct linkbox_written told = linkbox_loss_line(box, own, sizeof own);
    if (refusal == 0 && linkbox_write_line(wanted, sizeof wanted, line).length != told.length) return 0;
    if (told.refusal != refusal || !same_octets(own, wanted, sizeof own)) return 0;
    return linkbox_ticks_to_next(box) == (refusal != 0 ? 0 : box->run[LINKBOX_AT_NEXT]);
}

/* ── the run ── */

/* What the buffer holds before a call. */
static uint8_t before(size_t at) {
    return (uint8_t)((165 + at) % 256);
}

/* Sets the buffer. */
static void refill(struct held *held) {
    for (size_t i = 0; i < ROOM; i++) held->buffer[i] = before(i);
}

/* Tells whether the octets behind the part that was handed over are as they were. */
static int kept_behind(const struct held *held, size_t room) {
    for (size_t i = room; i < ROOM; i++) {
        if (held->buffer[i] != before(i)) return 0;
    }
    return 1;
}

/* What a call's number says of its body. */
static const struct shape *shape_of(uint32_t number) {
    for (size_t i = 0; i < sizeof SHAPES / sizeof SHAPES[0]; i++) {
        if (SHAPES[i].number == number) return &SHAPES[i];
    }
    return NULL;
}

/* Takes a call from its octets: its number, its body, and the buffer that it hands over. Tells whether it is one. */
static int take_call(const uint8_t *octets, size_t length, struct call *call) {
    call->body.at = octets;
    call->body.left = length;
    call->number = take_word(&call->body, 2);
    call->room = 0;
    const struct shape *shape = shape_of(call->number);
    if (shape == NULL || call->body.left < shape->least || call->body.left > shape->most) return 0;
    if (call->number == 258 && call->body.at[0] > LINKBOX_PASSIVE) return 0;
    if (shape->buffer_at == NO_BUFFER) return 1;
    struct rest room = {call->body.at + shape->buffer_at, 2};
    call->room = take_word(&room, 2);
    return call->room <= ROOM;
}

/* Runs a call and prints its line. Tells whether it wrote only where it may. */
static int run_call(struct held *held, struct call *call) {
    size_t buffer_at = shape_of(call->number)->buffer_at;
    refill(held);
    answer(held, call);
    if (!line_follows(&held->box)) print_text(" (the box's own line differs)");
    if (buffer_at != NO_BUFFER) {
        print_text(" | ");
        print_part(held->buffer, call->room);
    }
    putchar('\n');
    return kept_behind(held, call->room);
}

/* Reads so many octets; tells how many there were. */
static size_t read_octets(uint8_t *into, size_t count) {
    for (size_t i = 0; i < count; i++) {
        int octet = getchar();
        if (octet < 0) return i;
        into[i] = (uint8_t)octet;
    }
    return count;
}

/* Reads the next call: 1, or 0 at the end of the input, or -1 where it is none. */
static int next_call(uint8_t *octets, struct call *call) {
    uint8_t head[2];
    size_t got = read_octets(head, sizeof head);
    if (got == 0) return 0;
    if (got < sizeof head) return -1;
    size_t length = (size_t)head[0] + 256 * (size_t)head[1];
    if (length < 2 || length > MOST || read_octets(octets, length) < length) return -1;
    return take_call(octets, length, call) ? 1 : -1;
}

int main(void) {
    static struct held held;
    static uint8_t octets[MOST];
    struct call call;
    int more;
    while ((more = next_call(octets, &call)) > 0) {
        if (!run_call(&held, &call)) {
            print_text("a call wrote behind the buffer that it was handed\n");
            return 1;
        }
    }
    if (more < 0) print_text("bad call\n");
    return 0;
}
