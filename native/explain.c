/* Says on standard error, in one line, what a person must mend in the texts of the working folder. Called by ./run behind a printing
 * program, with that program's name and the refusal that it printed, 0 for none:
 *     explain verdict|plan_verdict|json_verdict NUMBER
 * It reads the same files with the library, in the same order, and names the first text that is refused with that number: the file, and
 * the line with what stands there; where that is a number outside its field's range, the range. A file that could not be read, is empty,
 * has a byte order mark or other line ends is told as that.
 * Where no text is refused so, the line has the refusal's words alone. Nothing is printed on standard output and nothing is judged here. */
#include "guvrendik.h"
#include "system.h"

enum { MOST = 65536, SHOWN = 60 };

/* A file: what stands in it, one byte more than the programs read. */
typedef struct {
    const char *name;
    long error;
    size_t length; /* of what is read, at most MOST */
    int longer;    /* more follows */
    uint8_t bytes[MOST + 256];
} text;

static text texts[3];

/* The line that is to be printed. */
static uint8_t said[1024];
static size_t said_length;

static void say_byte(uint8_t byte) {
    if (said_length < sizeof said) said[said_length++] = byte;
}

static void say(const char *words) {
    while (*words != 0) say_byte((uint8_t)*words++);
}

static void say_number(size_t number) {
    if (number >= 10) say_number(number / 10);
    say_byte((uint8_t)('0' + number % 10));
}

/* Bytes as they stand, those that a terminal cannot show as \xNN; no more than SHOWN of them. */
static void say_bytes(const uint8_t *bytes, size_t length) {
    static const char digits[] = "0123456789ABCDEF";
    for (size_t i = 0; i < length && i < SHOWN; i++) {
        if (bytes[i] < 0x20 || bytes[i] > 0x7E) {
            say("\\x");
            say_byte((uint8_t)digits[bytes[i] >> 4]);
            say_byte((uint8_t)digits[bytes[i] & 15]);
        } else {
            say_byte(bytes[i]);
        }
    }
    if (length > SHOWN) say("..");
}

static void say_refusal(uint32_t number) {
    uint8_t words[GUVRENDIK_TEXT_WORDS];
    guvrendik_written w = guvrendik_refusal_text(number, words, sizeof words);
    say("refusal ");
    say_number(number);
    say(", ");
    for (size_t i = 0; i < w.length; i++) say_byte(words[i]);
}

static void read_text(text *t, const char *name) {
    t->name = name;
    t->error = load(name, t->bytes, MOST + 1, &t->length);
    t->longer = t->length > MOST;
    if (t->longer) t->length = MOST;
}

static int begins(const text *t, const char *with, size_t length) {
    if (t->length < length) return 0;
    for (size_t i = 0; i < length; i++) {
        if (t->bytes[i] != (uint8_t)with[i]) return 0;
    }
    return 1;
}

static int is_marked(const text *t) { return begins(t, "\xEF\xBB\xBF", 3) || begins(t, "\xFF\xFE", 2) || begins(t, "\xFE\xFF", 2); }

/* What is wrong with the file as a whole; the answer is whether something is. */
static int say_file(const text *t) {
    const char *what = 0;
    if (t->error == NO_FILE) what = "no such file";
    else if (t->error == NO_ACCESS) what = "not readable";
    else if (t->error == IS_FOLDER) what = "a folder, and not a file";
    else if (t->error < 0) what = "cannot be read";
    else if (t->length == 0) what = "empty";
    else if (is_marked(t)) what = "begins with a byte order mark: save it as plain text, without one";
    if (what == 0) return 0;
    say(t->name);
    say(": ");
    say(what);
    return 1;
}

static void say_longer(const text *t) {
    say(t->name);
    say(": longer than 65,536 bytes; the rest is not read");
}

/* The fields that are numbers, and what they go from and to, as RULES.md has them: of a register, and of an action or a plan. */
typedef struct {
    const char *key;
    size_t least, greatest;
} range;

static const range of_register[] = {
    {"register", 1, 2},
    {"actor", 1, GUVRENDIK_MAX_ID},
    {"owner", 0, GUVRENDIK_MAX_ID},
    {"resource", 1, GUVRENDIK_MAX_ID},
    {"public", 0, 1},
    {"keeper", 1, GUVRENDIK_MAX_ID},
    {"claim", 1, GUVRENDIK_MAX_ID},
    {"parent", 0, GUVRENDIK_MAX_ID},
    {"grantor", 1, GUVRENDIK_MAX_ID},
    {"holder", 1, GUVRENDIK_MAX_ID},
    {"rights", 1, GUVRENDIK_MAX_RIGHTS},
    {"weight", 0, GUVRENDIK_MAX_WEIGHT},
    {"left", 0, GUVRENDIK_MAX_LEFT},
    {"expiry", 0, GUVRENDIK_MAX_MOMENT},
    {0, 0, 0},
};

static const range of_action[] = {
    {"now", 0, GUVRENDIK_MAX_MOMENT},
    {"actor", 0, GUVRENDIK_MAX_ID},
    {"flags", 0, GUVRENDIK_MAX_FLAGS},
    {"use", 0, GUVRENDIK_MAX_ID},
    {"right", 0, GUVRENDIK_LIMIT_RIGHTS - 1},
    {"govern", 0, GUVRENDIK_MAX_ID},
    {0, 0, 0},
};

/* How many bytes of a line are this key and its equals sign, 0 where it begins otherwise. */
static size_t begins_key(const uint8_t *line, size_t length, const char *key) {
    size_t i = 0;
    while (i < length && key[i] != 0 && line[i] == (uint8_t)key[i]) i++;
    return i < length && key[i] == 0 && line[i] == '=' ? i + 1 : 0;
}

/* Whether these bytes are a number as the texts have it, without zeros before it, below the least or above the greatest. */
static int is_outside(const uint8_t *digits, size_t length, const range *r) {
    size_t number = 0;
    if (length == 0 || (length > 1 && digits[0] == '0')) return 0;
    for (size_t i = 0; i < length; i++) {
        if (digits[i] < '0' || digits[i] > '9') return 0;
        if (number <= r->greatest) number = 10 * number + (size_t)(digits[i] - '0');
    }
    return number < r->least || number > r->greatest;
}

/* The range that a line's number is outside of, or none. */
static const range *range_missed(const text *t, const uint8_t *line, size_t length) {
    for (const range *r = t == &texts[0] ? of_register : of_action; r->key != 0; r++) {
        size_t key = begins_key(line, length, r->key);
        if (key > 0) return is_outside(line + key, length - key, r) ? r : 0;
    }
    return 0;
}

static void say_place(const text *t, size_t line) {
    say(t->name);
    say(", line ");
    say_number(line);
    say(": ");
}

static void say_range(const text *t, uint32_t number, size_t line, const uint8_t *bytes, size_t length, const range *r) {
    say("refusal ");
    say_number(number);
    say(", out of range: ");
    say_place(t, line);
    say("\"");
    say_bytes(bytes, length);
    say("\"; ");
    say(r->key);
    say(" goes from ");
    say_number(r->least);
    say(" to ");
    say_number(r->greatest);
}

/* A line with a carriage return, which no line of a text has: its end, before a line feed or alone. */
static void say_return(const text *t, size_t line, int with_line_feed) {
    say(t->name);
    say(": line ");
    say_number(line);
    say(with_line_feed ? " ends in CR LF" : " ends in CR alone");
    say(": save the file with line ends of LF alone");
}

/* The refused line of a text, from 1, with what stands there. */
static void say_line(const text *t, uint32_t number, size_t line) {
    size_t from = 0, to, back;
    for (size_t n = 1; n < line && from < t->length; from++) {
        if (t->bytes[from] == '\n') n++;
    }
    for (to = from; to < t->length && t->bytes[to] != '\n';) to++;
    for (back = from; back < to && t->bytes[back] != '\r';) back++;
    const int ends = to < t->length;
    const range *missed = ends ? range_missed(t, t->bytes + from, to - from) : 0;
    if (back < to) {
        say_return(t, line, ends && back + 1 == to);
    } else if (!ends && t->longer) {
        say_longer(t);
    } else if (missed != 0) {
        say_range(t, number, line, t->bytes + from, to - from, missed);
    } else {
        say_refusal(number);
        say(": ");
        say_place(t, line);
        if (from == t->length) {
            say("the text ends before it");
        } else {
            say("\"");
            say_bytes(t->bytes + from, to - from);
            say(ends ? "\"" : "\", without a line feed at its end");
        }
    }
}

/* Whether the text of this answer was refused so, and then what is wrong with it. */
static int say_text(const text *t, uint32_t number, uint32_t refusal, size_t line) {
    if (refusal != number) return 0;
    if (say_file(t)) return 1;
    if (line > 0) {
        say_line(t, number, line);
    } else if (t->longer) {
        say_longer(t);
    } else {
        say_refusal(number);
        say(": ");
        say(t->name);
    }
    return 1;
}

/* clock.txt has one line, the first of an action's text: it is read as an action of that line and nothing else. */
static guvrendik_action_read read_clock(text *t) {
    static const char rest[] = "actor=1\nflags=0\nuses=0\ngoverns=0\n";
    size_t length = t->length;
    for (const char *byte = rest; *byte != 0; byte++) t->bytes[length++] = (uint8_t)*byte;
    guvrendik_action_read answer = guvrendik_read_action(t->bytes, length);
    if (answer.line > 2) answer.line = 2;
    return answer;
}

static guvrendik_register_read registered;
static guvrendik_action_read clock_read;
static guvrendik_plan_text_verdict judged;

/* The first text that is refused with the number, in the order in which the program reads them. */
static int say_refused(char program_name, uint32_t number) {
    registered = guvrendik_read_register(texts[0].bytes, texts[0].length);
    if (registered.accepted == 0) return say_text(&texts[0], number, registered.refusal, registered.line);
    if (program_name == 'v') {
        guvrendik_action_read action = guvrendik_read_action(texts[1].bytes, texts[1].length);
        return action.accepted == 0 && say_text(&texts[1], number, action.refusal, action.line);
    }
    if (program_name == 'p') {
        judged = guvrendik_judge_plan_text(registered.state, texts[1].bytes, texts[1].length);
        return judged.line > 0 && say_text(&texts[1], number, judged.refusal, judged.line);
    }
    clock_read = read_clock(&texts[1]);
    if (clock_read.accepted == 0) return say_text(&texts[1], number, number == 2 ? 2 : clock_read.refusal, clock_read.line);
    guvrendik_json_read action = guvrendik_read_json(texts[2].bytes, texts[2].length, clock_read.action.now);
    return action.accepted == 0 && say_text(&texts[2], number, action.refusal, 0);
}

int program(int words, char **word) {
    uint32_t number = 0;
    if (words != 3) return 126;
    for (const char *digit = word[2]; *digit != 0; digit++) number = 10 * number + (uint32_t)(*digit - '0');
    read_text(&texts[0], "register.txt");
    read_text(&texts[1], word[1][0] == 'v' ? "action.txt" : word[1][0] == 'p' ? "plan.txt" : "clock.txt");
    if (word[1][0] == 'j') read_text(&texts[2], "action.json");
    say("run: ");
    if (number > 0) {
        if (!say_refused(word[1][0], number)) say_refusal(number);
    } else {
        size_t i = 0;
        while (i < 3 && !texts[i].longer) i++;
        if (i == 3) return 0;
        say_longer(&texts[i]);
    }
    say_byte('\n');
    return put(2, said, said_length) ? 0 : 127;
}
