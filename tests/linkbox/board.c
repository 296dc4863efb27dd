/* board.c: the board of linkbox/examples/firmware.c, played. Each line of standard input is what happens at a tick:
 *     TICK active HEX     a frame comes from the link, or `passive` from our own end
 *     TICK busy UNTIL     the board does something else until then, and ticks are missed
 *     TICK off            it is switched off
 * and each line that is printed is what the loop did, after the tick that the board's clock shows then. `#` begins a remark. */
#include "said.h"

#include "board.h"

int getchar(void);

enum { MOST = 1600, TICKS_A_SECOND = 600 };

/* The clock, and the next thing that happens: at which tick, the first letter of its word, its frame, or until when it lasts. */
static uint32_t clock_now, next_at;
static char next_word;
static uint8_t next_octets[MOST];
static size_t next_length;
static uint32_t next_until;
static int is_read, has_come;

/* ── reading ── */

static int is_blank(int c) { return c == ' '; }

static int digit_of(int c) { return c >= '0' && c <= '9' ? c - '0' : c >= 'a' && c <= 'f' ? c - 'a' + 10 : -1; }

/* The first octet of the next line that is no remark, or -1 at the end. */
static int line_start(void) {
    int c = getchar();
    while (c == '#' || c == '\n') {
        while (c >= 0 && c != '\n') c = getchar();
        c = getchar();
    }
    return c;
}

/* A number from its first digit on. */
static uint32_t number_from(int c) {
    uint32_t number = 0;
    for (; c >= '0' && c <= '9'; c = getchar()) number = 10 * number + (uint32_t)(c - '0');
    return number;
}

/* Octets in hex to the end of the line. */
static void read_frame(void) {
    int c = getchar();
    for (next_length = 0; c >= 0 && c != '\n'; c = getchar()) {
        if (is_blank(c)) continue;
        next_octets[next_length++] = (uint8_t)(16 * digit_of(c) + digit_of(getchar()));
    }
}

/* The next line; the end of the input switches the board off. */
static void read_next(void) {
    int c = line_start();
    is_read = 1;
    has_come = 0;
    next_at = c < 0 ? clock_now : number_from(c);
    next_word = c < 0 ? 'o' : (char)getchar();
    while (c >= 0 && c != ' ' && c != '\n') c = getchar();
    if (next_word == 'a' || next_word == 'p') read_frame();
    if (next_word == 'b') next_until = number_from(getchar());
}

/* ── what the loop calls ── */

int board_wait(uint32_t ticks) {
    if (!is_read) read_next();
    if (next_at > clock_now && next_at - clock_now > ticks) {
        clock_now += ticks;
        return 1;
    }
    clock_now = next_at > clock_now ? next_at : clock_now;
    if (next_word == 'o') return 0;
    has_come = next_word != 'b';
    if (next_word == 'b') {
        clock_now = next_until;
        is_read = 0;
    }
    return 1;
}

uint32_t board_ticks(void) { return clock_now; }

/* A tick is 1,666,666 ns here; the day began 1,000 s before. */
struct linkbox_stamp board_stamp(void) {
    struct linkbox_stamp stamp;
    stamp.seconds = 1000 + clock_now / TICKS_A_SECOND;
    stamp.nanoseconds = clock_now % TICKS_A_SECOND * 1666666;
    return stamp;
}

size_t board_frame(uint8_t *into, size_t room, uint32_t *side, struct linkbox_stamp *when) {
    if (!has_come || next_length > room) return 0;
    for (size_t i = 0; i < next_length; i++) into[i] = next_octets[i];
    *side = next_word == 'a' ? LINKBOX_ACTIVE : LINKBOX_PASSIVE;
    *when = board_stamp();
    is_read = has_come = 0;
    return next_length;
}

/* ── what is printed ── */

static void print_octet(uint32_t octet) {
    static const char HEX[] = "0123456789abcdef";
    putchar(HEX[octet / 16 % 16]);
    putchar(HEX[octet % 16]);
}

static void print_signed(int64_t number) {
    if (number < 0) putchar('-');
    print_decimal(number < 0 ? 0 - (uint64_t)number : (uint64_t)number);
}

/* The clock and a text. */
static void print_at(const char *text) {
    print_decimal(clock_now);
    putchar(' ');
    print_text(text);
}

void board_send(uint32_t side, const uint8_t *frame, size_t length) {
    print_at(side == LINKBOX_ACTIVE ? "to the link: " : "to our end: ");
    print_decimal(length);
    if (length > 16 && frame[12] == 0x89 && frame[13] == 0x02) {
        print_text(" octets, opcode ");
        print_decimal(frame[15]);
        print_text(" flags ");
        print_octet(frame[16]);
    } else {
        print_text(" octets, service");
    }
    putchar('\n');
}

void board_store(const uint8_t *record, size_t length) {
    print_at("stored: ");
    for (size_t i = 0; i < length; i++) print_octet(record[i]);
    putchar('\n');
}

void board_say(const char *what, const char *why) {
    print_at(what);
    print_text(": ");
    print_text(why);
    putchar('\n');
}

void board_loss(int64_t near_loss, int64_t far_loss) {
    print_at("loss: near ");
    print_signed(near_loss);
    print_text(" far ");
    print_signed(far_loss);
    putchar('\n');
}

void board_delay(int64_t two_way, int64_t one_way_far, int64_t one_way_near) {
    print_at("delay: ");
    print_signed(two_way);
    print_text(" far ");
    print_signed(one_way_far);
    print_text(" near ");
    print_signed(one_way_near);
    putchar('\n');
}
