/* Runs an image of `rtic` under a script inside the exception handlers of a Cortex-M4: entry, return, BASEPRI, PRIMASK,
 * pending and active bits are the processor's and its NVIC's, and the other instructions are interpreted. bench/qemu
 * puts images with their events at INPUT, after their number and the word at which each begins. It reads from standard
 * output a record of each core step, and one more at the end of each image. Each image begins with a reset.
 *
 * The lines of the NVIC are enabled for a moment before each core step, and at no other time: so an exception entry is
 * a step of its own, as in the model, and what the script requests between two steps is there at once. */
#include <stdint.h>

typedef uint32_t word;

enum {
    INPUT = 0x21000000, LOG = 0x21800000, LOG_END = 0x21ff0000, KEPT = 0x21ff8000, FRAME_WORDS = 65536, LINES = 32
};

enum op {
    SET, COPY, ADD, SUB, MUL, DIV, REM, AND, OR, XOR, SHL, SHR, EQ, NE, LT, LE, GT, GE, LOAD, STORE, LOADAT, STOREAT,
    JUMP, JUMPZ, EMIT, POST, CLOCK, ALARM, NOALARM, RAISE, RESTORE, MASK, UNMASK, MARK, SERVE, WAIT, CALL, BACK, RET
};
enum event { STEP, TICK, PEND };
enum what { ENTERED = 1, DONE = 2, FAILED = 3, ENDED = 4 };

struct head { word fpu, thread, rows, bodies, cells, code, events; };
struct row { word enabled, priority, entry, frame; };
struct body { word entry, frame, arguments; };
struct instruction { word op, a, b, c; };
struct happening { word kind, line, count; };
struct record { word what, which, basepri, primask, pending, active, fall; };
struct frame { word *slots; word words; };

static const word *const input = (const word *)INPUT;
static const struct head *head;
static const struct row *rows;
static const struct body *bodies;
static const struct instruction *code;
static const struct happening *next_event;
static const struct happening *last_event;
static word *cells;
static word left, now, alarm_at, alarm_line, has_alarm, lines_enabled;
static volatile word entries, returned, sp_before;
static word frames[FRAME_WORDS], *top = frames;
static struct record *log_at = (struct record *)LOG;

#define NVIC(offset) (*(volatile word *)(0xE000E000 + (offset)))
#define ISER NVIC(0x100)
#define ICER NVIC(0x180)
#define ISPR NVIC(0x200)
#define IABR NVIC(0x300)
#define PRIORITIES ((volatile uint8_t *)0xE000E400)
#define CPACR NVIC(0xD88)
#define AIRCR NVIC(0xD0C)
/* Which image runs. A reset leaves this word as it is. */
#define IMAGE (*(volatile word *)KEPT)

static word basepri(void) { word v; __asm__ volatile("mrs %0, basepri" : "=r"(v)); return v; }
static word primask(void) { word v; __asm__ volatile("mrs %0, primask" : "=r"(v)); return v; }
static void set_basepri(word v) { __asm__ volatile("msr basepri, %0\n isb" ::"r"(v) : "memory"); }
static void set_primask(word v) { __asm__ volatile("msr primask, %0\n isb" ::"r"(v) : "memory"); }

static word semihost(word operation, const void *argument) {
    register word r0 __asm__("r0") = operation;
    register const void *r1 __asm__("r1") = argument;
    __asm__ volatile("bkpt 0xab" : "+r"(r0) : "r"(r1) : "memory");
    return r0;
}

/* Writes the records, and goes on to the next image, or ends the emulator. */
static void finish(void) {
    struct record end = {ENDED, IMAGE, 0, 0, 0, 0, 0};
    *log_at++ = end;
    word name[3] = {(word) ":tt", 4, 3};
    word handle = semihost(0x01, name);
    word output[3] = {handle, LOG, (word)log_at - LOG};
    semihost(0x05, output);
    if (++IMAGE < input[0]) AIRCR = 0x05fa0004;
    else semihost(0x18, (void *)0x20026);
    for (;;) {
    }
}

static void note(word what, word which, word fall) {
    struct record made = {what, which, basepri(), primask(), ISPR, IABR, fall};
    if ((word)log_at >= LOG_END) finish();
    *log_at++ = made;
}

static void fail(word address) {
    note(FAILED, address, 0);
    finish();
}

static void request(word line) { ISPR = 1u << line; }

static void tick(void) {
    now++;
    if (has_alarm && alarm_at <= now) {
        has_alarm = 0;
        request(alarm_line);
    }
}

/* Lets all that comes before the next core step happen; at the end of the events the run ends. */
static void come_to_step(void) {
    for (;;) {
        while (left == 0) {
            if (next_event == last_event) finish();
            left = next_event->count;
            next_event++;
        }
        left--;
        switch (next_event[-1].kind) {
        case STEP: return;
        case TICK: tick(); break;
        default: request(next_event[-1].line);
        }
    }
}

/* Enables the lines for a moment: whether an exception was entered. The stack pointer is the same throughout. */
static inline __attribute__((always_inline)) word look(void) {
    word before = entries;
    word sp;
    __asm__ volatile("mov %0, sp" : "=r"(sp));
    sp_before = sp;
    if (head->fpu) __asm__ volatile(".fpu fpv4-sp-d16\n vmov s0, %0" ::"r"(before));
    ISER = lines_enabled;
    __asm__ volatile("dsb\n isb" ::: "memory");
    ICER = 0xffffffff;
    __asm__ volatile("dsb\n isb" ::: "memory");
    return entries != before;
}

static word calculated(word op, word a, word b) {
    switch (op) {
    case ADD: return a + b;
    case SUB: return a - b;
    case MUL: return a * b;
    case DIV: return b ? a / b : 0;
    case REM: return b ? a % b : a;
    case AND: return a & b;
    case OR: return a | b;
    case XOR: return a ^ b;
    case SHL: return b < 32 ? a << b : 0;
    case SHR: return b < 32 ? a >> b : 0;
    case EQ: return a == b;
    case NE: return a != b;
    case LT: return a < b;
    case LE: return a <= b;
    case GT: return a > b;
    default: return a >= b;
    }
}

static void set_alarm(word instant, word line) {
    has_alarm = instant > now;
    if (!has_alarm) request(line);
    alarm_at = instant;
    alarm_line = line;
}

static word *pushed(word words) {
    word *slots = top;
    for (word at = 0; at < words; at++) slots[at] = 0;
    top += words;
    if (top > frames + FRAME_WORDS) fail(0xffffffff);
    return slots;
}

/* Runs the code of a handler, or of the thread, from an address to its return. */
static __attribute__((noinline)) void run(word address, word words) {
    struct frame running = {pushed(words), words}, caller = {0, 0};
    for (;;) {
        come_to_step();
        if (look()) {
            if (returned) {
                returned = 0;
                note(DONE, 0xffffffff, 0);
            }
            continue;
        }
        if (address >= head->code) fail(address);
        const struct instruction *i = &code[address];
        word *s = running.slots;
        address++;
        switch (i->op) {
        case SET: s[i->a] = i->b; break;
        case COPY: s[i->a] = s[i->b]; break;
        case LOAD: s[i->a] = cells[i->b]; break;
        case STORE: cells[i->a] = s[i->b]; break;
        case LOADAT: s[i->a] = cells[i->b + s[i->c]]; break;
        case STOREAT: cells[i->a + s[i->b]] = s[i->c]; break;
        case JUMP: address = i->a; break;
        case JUMPZ: if (s[i->a] == 0) address = i->b; break;
        case EMIT: case MARK: break;
        case POST: request(i->a); break;
        case CLOCK: s[i->a] = now; break;
        case ALARM: set_alarm(s[i->a], i->b); break;
        case NOALARM: has_alarm = 0; break;
        case RAISE: s[i->a] = basepri(); set_basepri(i->b); break;
        case RESTORE: set_basepri(s[i->a]); break;
        case MASK: s[i->a] = primask(); set_primask(1); break;
        case UNMASK: set_primask(s[i->a]); break;
        case SERVE: set_primask(0); break;
        case WAIT: address--; break;
        case CALL:
            caller = running;
            s[running.words - 1] = address;
            address = bodies[i->a].entry;
            running.words = bodies[i->a].frame;
            running.slots = pushed(running.words);
            for (word at = 0; at < bodies[i->a].arguments; at++) running.slots[at] = s[i->b + at];
            break;
        case BACK:
            top = running.slots;
            running = caller;
            address = running.slots[running.words - 1];
            break;
        case RET:
            top = running.slots;
            returned = 1;
            return;
        default: s[i->a] = calculated(i->op, s[i->b], s[i->c]);
        }
        note(DONE, address, 0);
    }
}

/* Every exception comes here, with the stack pointer after its entry. */
__attribute__((used)) void enter(word sp) {
    word number;
    ICER = 0xffffffff;
    __asm__ volatile("dsb\n isb\n mrs %0, ipsr" : "=r"(number));
    entries++;
    if (number < 16) fail(number);
    note(ENTERED, number - 16, sp_before - sp);
    run(rows[number - 16].entry, rows[number - 16].frame);
}

__attribute__((naked)) void exception(void) { __asm__ volatile("mov r0, sp\n b enter"); }

__attribute__((used)) void begin(void) {
    head = (const struct head *)(input + input[1 + IMAGE]);
    rows = (const struct row *)(head + 1);
    bodies = (const struct body *)(rows + head->rows);
    cells = (word *)(bodies + head->bodies);
    code = (const struct instruction *)(cells + head->cells);
    next_event = (const struct happening *)(code + head->code);
    last_event = next_event + head->events;
    if (head->fpu) CPACR |= 0xf << 20;
    __asm__ volatile("dsb\n isb");
    for (word line = 0; line < head->rows; line++) {
        PRIORITIES[line] = (uint8_t)rows[line].priority;
        lines_enabled |= rows[line].enabled << line;
    }
    set_primask(1);
    run(0, head->thread);
    fail(0);
}

extern word stack_end[];

__attribute__((naked)) void reset(void) { __asm__ volatile("b begin"); }

#define FOUR exception, exception, exception, exception
#define SIXTEEN FOUR, FOUR, FOUR, FOUR

__attribute__((section(".vectors"), used)) void (*const vectors[16 + LINES])(void) = {
    (void (*)(void))stack_end, reset, exception, exception, FOUR, FOUR, FOUR, SIXTEEN, SIXTEEN,
};
