/* The practical limit of bench/run.sh: the lines of giopdump over the streams of bench/, by a program that knows them.
 *
 *   cc -O3 -march=x86-64-v2 -o limit bench/limit.c && ./limit [OPEN] <STREAM
 *
 * It is a limit for these streams and no dumper. The operations of calls.sig, and those of naming.sig that the captured
 * calls name, are a table of steps below, with the text of each line ready; it reads no signature file. It knows
 * Requests of GIOP 1.2 without service contexts, Fragments, and CloseConnection, and no faults: at anything else it
 * says that on standard error and ends with status 3. So `mixed`, which has messages of every type and version and many
 * faults, isn't for it. OPEN is how many messages may be open at once, 16 where it is missing.
 *
 * Like the dumper it keeps nothing of a message but where its reading stands, and goes on from there in the next block
 * of input or the next Fragment. It is for processors whose numbers begin with the lowest octet.
 */
#include <stdint.h>
#include <stdio.h>
#include <stdlib.h>
#include <string.h>
#include <unistd.h>

enum {
    BLOCK = 1 << 16, /* octets that are read at once, and that are gathered before they are written */
    LINE = 512,      /* no line is longer */
    PIECE = 32,      /* octets of a piece of content */
    AHEAD = PIECE,   /* behind the input and what is held: a piece is read whole, however many octets of it count */
    TEXT = 48,       /* octets of a step's text, at most */
    PREFIX = 64,     /* octets of a message's prefix: at most 20 digits, a path of 17 letters and an index of 10 */
    MOST = 4096      /* messages that may be open at once */
};

static _Noreturn void refuse(const char *what) {
    fprintf(stderr, "limit: not for this stream: %s\n", what);
    exit(3);
}

/* ---- Output: lines are spelled at `out`, which always has room for one more ---- */

static uint8_t output[BLOCK + LINE], *out = output;

static void flush(void) {
    for (ssize_t at = 0, count; output + at < out; at += count) {
        count = write(1, output + at, (size_t)(out - output - at));
        if (count <= 0) refuse("write failed");
    }
    out = output;
}

/* Where the next line begins. */
static inline uint8_t *begin_line(void) {
    if (out > output + BLOCK) flush();
    return out;
}

static inline void end_line(uint8_t *p) { *p = '\n', out = p + 1; }

static inline uint8_t *put(uint8_t *p, const char *text) {
    return (uint8_t *)memcpy(p, text, strlen(text)) + strlen(text);
}

/* The eight digits of a number below 10^8, the first in the lowest octet: halves of four, then of two, then of one. */
static inline uint64_t eight_digits(uint32_t n) {
    uint64_t x = n / 10000 | (uint64_t)(n % 10000) << 32;
    uint64_t q = (x * 10486 >> 20) & 0x0000007f0000007f;
    x = q | (x - q * 100) << 16;
    q = (x * 103 >> 10) & 0x000f000f000f000f;
    return q | (x - q * 10) << 8;
}

static inline uint8_t *put_eight(uint8_t *p, uint32_t n) {
    uint64_t digits = eight_digits(n) + 0x3030303030303030;
    return (uint8_t *)memcpy(p, &digits, 8) + 8;
}

static inline uint8_t *put_number(uint8_t *p, uint32_t n) {
    *p = (uint8_t)('0' + n);
    if (n < 10) return p + 1;
    if (n >= 100000000) {
        uint32_t top = n / 100000000;
        if (top >= 10) *p++ = (uint8_t)('0' + top / 10);
        *p++ = (uint8_t)('0' + top % 10);
        return put_eight(p, n % 100000000);
    }
    uint64_t digits = eight_digits(n);
    int zeros = __builtin_ctzll(digits) & ~7; /* bits in front of the first digit that isn't 0 */
    digits = (digits + 0x3030303030303030) >> zeros;
    return (uint8_t *)memcpy(p, &digits, 8) + 8 - zeros / 8;
}

static uint8_t *put_long(uint8_t *p, uint64_t n) {
    if (n <= UINT32_MAX) return put_number(p, (uint32_t)n);
    return put_eight(put_long(p, n / 100000000), (uint32_t)(n % 100000000));
}

/* The beginning of a line of a message, without a path. */
static uint8_t *line_of_number(uint64_t number) { return put(put_long(put(begin_line(), "m"), number), " "); }

/* The hexadecimal digits of a piece, in a loop without a branch. */
static inline void put_hex(uint8_t *restrict p, const uint8_t *restrict s) {
    for (int i = 0; i < PIECE; i++) {
        uint8_t high = s[i] >> 4, low = s[i] & 15;
        p[2 * i] = (uint8_t)(high + '0' + (high > 9 ? 'a' - '0' - 10 : 0));
        p[2 * i + 1] = (uint8_t)(low + '0' + (low > 9 ? 'a' - '0' - 10 : 0));
    }
}

/* Those of four octets, the heaviest first: eight octets of four bits each, then a digit of each. */
static inline uint8_t *put_hex4(uint8_t *p, uint32_t n) {
    uint64_t x = __builtin_bswap32(n);
    x = (x | x << 16) & 0x0000ffff0000ffff;
    x = (x | x << 8) & 0x00ff00ff00ff00ff;
    x = (x >> 4 | x << 8) & 0x0f0f0f0f0f0f0f0f;
    uint64_t letters = (x + 0x0606060606060606) >> 4 & 0x0101010101010101;
    x += 0x3030303030303030 + letters * ('a' - '0' - 10);
    return (uint8_t *)memcpy(p, &x, 8) + 8;
}

/* A piece of a string, of at most 32 octets, each of which stands for itself. */
static inline uint8_t *put_text(uint8_t *p, const uint8_t *s, uint32_t count) {
    uint8_t other = 0;
    for (uint8_t i = 0; i < PIECE; i++)
        other |= (uint8_t)((i < count) & ((s[i] < 0x20) | (s[i] > 0x7e) | (s[i] == '"') | (s[i] == '\\')));
    if (other) refuse("an octet that isn't written as itself");
    return (uint8_t *)memcpy(p, s, PIECE) + count;
}

/* ---- The types, as steps ---- */

enum what {
    /* Numbers with a line. TAG is a profile's and TARGET the discriminator of a target, each 0 alone; CONTEXTS the
     * count of the service contexts, 0 too; SWITCH a remark's discriminator; COUNT that of a sequence, whose elements
     * go up to AGAIN; LENGTH an encapsulation's, and ORDER its byte order. */
    REQUEST_ID, OCTET, BOOLEAN, USHORT, LONG, ULONG, LONGLONG, DOUBLE, COLOUR, TAG, TARGET, CONTEXTS, SWITCH, COUNT,
    LENGTH, ORDER,
    /* A length without a line, then content in pieces. */
    STRING, OPERATION, OCTETS,
    /* What has no number: what an encapsulation has behind its value; the end of an element; the end of a remark's
     * first case, behind which its second is one step; the octets up to the body of the operation. */
    REST, AGAIN, ELSE, PADDING,
    OVER, /* the end: no octet is taken here */
    NAME  /* the operation that the steps behind it are of */
};

/* Of each kind the octets of its number, the greatest that is taken, and the word of its lines. */
static const struct {
    uint8_t width;
    uint64_t most;
    const char *word;
} kinds[] = {
    [REQUEST_ID] = {4, UINT32_MAX, " ulong "}, [OCTET] = {1, 255, " octet "}, [BOOLEAN] = {1, 1, " boolean "},
    [USHORT] = {2, 65535, " ushort "}, [LONG] = {4, UINT32_MAX, " long "}, [ULONG] = {4, UINT32_MAX, " ulong "},
    [LONGLONG] = {8, UINT64_MAX, " longlong "}, [DOUBLE] = {8, UINT64_MAX, " double "}, [COLOUR] = {4, 2, " enum "},
    [TAG] = {4, 0, " ulong "}, [TARGET] = {2, 0, " short "}, [CONTEXTS] = {4, 0, " count "},
    [SWITCH] = {2, INT16_MAX, " short "}, [COUNT] = {4, UINT32_MAX, " count "},
    [LENGTH] = {4, UINT32_MAX, " encapsulation "}, [ORDER] = {1, 1, " order "}, [STRING] = {4, 0, " string @"},
    [OPERATION] = {4, 0, " string @"}, [OCTETS] = {4, 0, " octets @"}, [REST] = {1, 0, " rest @"}, [AGAIN] = {1, 0, ""},
    [ELSE] = {1, 0, ""}, [PADDING] = {8, 0, ""}, [OVER] = {1, 0, ""}, [NAME] = {1, 0, ""},
};

/* What is read, and its path: within an element of a sequence, from that element on. */
static const struct {
    enum what what;
    const char *path;
} table[] = {
    {REQUEST_ID, "header.request_id"}, {OCTET, "header.response_flags"},
    {OCTET, "header.reserved[0]"}, {OCTET, "header.reserved[1]"}, {OCTET, "header.reserved[2]"},
    {TARGET, "header.target.switch"}, {OCTETS, "header.target.object_key"},
    {OPERATION, "header.operation"}, {CONTEXTS, "header.service_contexts"}, {PADDING, ""},
    {NAME, "record"}, {STRING, "body.track.name"}, {COLOUR, "body.track.colour"},
    {COUNT, "body.track.points"}, {LONG, ".x"}, {LONG, ".y"}, {DOUBLE, ".weight"}, {AGAIN, ""},
    {SWITCH, "body.remark.switch"}, {STRING, "body.remark.note"}, {ELSE, ""}, {LONGLONG, "body.remark.number"},
    {COUNT, "body.marks"}, {ULONG, ""}, {AGAIN, ""}, {BOOLEAN, "body.closed"}, {OCTETS, "body.picture"}, {OVER, ""},
    {NAME, "store"}, {OCTETS, "body.data"}, {OVER, ""},
    {NAME, "plot"}, {COUNT, "body.values"}, {DOUBLE, ""}, {AGAIN, ""}, {OVER, ""},
    {NAME, "_is_a"}, {STRING, "body.logical_type_id"}, {OVER, ""},
    {NAME, "bind"}, {COUNT, "body.n"}, {STRING, ".id"}, {STRING, ".kind"}, {AGAIN, ""}, {STRING, "body.obj.type_id"},
    {COUNT, "body.obj.profiles"}, {TAG, ".tag"}, {LENGTH, ".profile_data"}, {ORDER, ".profile_data"},
    {OCTET, ".profile_data.major"}, {OCTET, ".profile_data.minor"}, {STRING, ".profile_data.host"},
    {USHORT, ".profile_data.port"}, {OCTETS, ".profile_data.object_key"}, {REST, ".profile_data"},
    {AGAIN, ""}, {OVER, ""},
    {NAME, "resolve"}, {COUNT, "body.n"}, {STRING, ".id"}, {STRING, ".kind"}, {AGAIN, ""}, {OVER, ""},
    {NAME, "bind_new_context"}, {COUNT, "body.n"}, {STRING, ".id"}, {STRING, ".kind"}, {AGAIN, ""}, {OVER, ""},
};

/* A step made ready: its text is the path and the word behind it. */
static struct step {
    const struct step *other; /* where COUNT, AGAIN, SWITCH and ELSE go on, if not with the next step */
    uint8_t what, width, path_length, length;
    char text[TEXT];
} steps[sizeof table / sizeof *table];
enum { STEPS = sizeof steps / sizeof *steps };

static void make_steps(void) {
    struct step *from = steps; /* the COUNT or SWITCH that waits for its AGAIN or ELSE */
    for (int i = 0; i < STEPS; i++) {
        struct step *step = &steps[i];
        step->what = (uint8_t)table[i].what, step->width = kinds[step->what].width;
        step->path_length = (uint8_t)strlen(table[i].path);
        step->length = (uint8_t)snprintf(step->text, TEXT, "%s%s", table[i].path, kinds[step->what].word);
        if (step->length >= TEXT) refuse("a text is too long");
        if (step->what == COUNT || step->what == SWITCH) from = step;
        if (step->what == AGAIN) step->other = from + 1;
        if (step->what == ELSE) step->other = step + 2;
        if (step->what == AGAIN || step->what == ELSE) from->other = step + 1;
    }
}

/* The first step of an operation's body. */
static const struct step *body_of(const uint8_t *name, uint32_t length) {
    for (const struct step *step = steps; step < steps + STEPS; step++)
        if (step->what == NAME && step->length == length && !memcmp(step->text, name, length)) return step + 1;
    refuse("another operation");
}

/* ---- A message ---- */

/* A message that is read: where its reading stands. Of the next unit, a number or a piece of content, `want` octets are
 * waited for, of which the first `padding` are passed over; those that came at the end of a run are held. */
struct message {
    const struct step *step, *body;
    uint64_t number, at, origin, end; /* `origin` and `end`: of the encapsulation; 0 and the greatest without one */
    uint32_t want, padding, held, in_content, little, outer_little;
    uint32_t left, offset;            /* octets of content to come, and in front of the piece */
    uint32_t id, index, count;        /* `index` and `count`: of the sequence that is open */
    uint32_t start, elements, length; /* of the prefix: `mN `; up to the index; all of it */
    uint8_t prefix[PREFIX];           /* `mN `, and in a sequence the path of its element */
    uint8_t hold[PIECE + 1 + AHEAD];
    struct message *next;             /* in the chain of its id, or of the free records */
};

static inline uint8_t *line_of(const struct message *m, const struct step *step) {
    uint8_t *p = begin_line();
    memcpy(p, m->prefix, 32);
    if (m->length > 32) memcpy(p + 32, m->prefix + 32, PREFIX - 32);
    memcpy(p + m->length, step->text, TEXT);
    return p + m->length + step->length;
}

static void put_index(struct message *m) {
    m->length = (uint32_t)(put(put_number(m->prefix + m->elements, m->index), "]") - m->prefix);
}

/* Opens a sequence, or goes on behind it where it has no element. */
static void open_sequence(struct message *m, const struct step *step, uint32_t count) {
    if (!count) {
        m->step = step->other;
        return;
    }
    memcpy(m->prefix + m->start, step->text, step->path_length);
    m->elements = m->start + step->path_length + 1;
    m->prefix[m->elements - 1] = '[';
    m->index = 0, m->count = count;
    put_index(m);
}

/* Begins what an encapsulation has behind its value, or closes it where that is nothing. */
static void end_value(struct message *m) {
    m->left = (uint32_t)(m->end - m->at), m->offset = 0;
    m->in_content = m->left != 0;
    if (m->in_content) return;
    m->origin = 0, m->end = UINT64_MAX, m->little = m->outer_little;
    m->step++;
}

/* Goes on to the next step that takes octets, and sets how many are waited for. */
static inline void plan(struct message *m) {
    const struct step *step = m->step;
    while (!m->in_content && step->what >= REST && step->what != OVER) {
        if (step->what == AGAIN && ++m->index < m->count) put_index(m), m->step = step->other;
        else if (step->what == AGAIN) m->length = m->start, m->step++;
        else if (step->what == ELSE) m->step = step->other;
        else if (step->what == REST) end_value(m);
        else if (m->at & 7) break;
        else m->step = m->body;
        step = m->step;
    }
    m->padding = m->in_content ? 0 : (uint32_t)(m->origin - m->at) & (step->width - 1u);
    if (!m->in_content) m->want = m->padding + (step->what == PADDING ? 0 : step->width);
    else m->want = m->left > PIECE ? PIECE : m->left + (step->what == STRING || step->what == OPERATION);
    if (m->at + m->want > m->end) refuse("encap-short");
}

/* A number of so many octets, a power of two up to 8. */
static inline uint64_t load(const uint8_t *p, uint32_t width, uint32_t little) {
    uint64_t eight;
    uint32_t four;
    if (width == 1) return *p;
    if (width == 2) return (uint64_t)p[!little] | (uint64_t)p[little] << 8;
    if (width == 4) return memcpy(&four, p, 4), little ? four : __builtin_bswap32(four);
    return memcpy(&eight, p, 8), little ? eight : __builtin_bswap64(eight);
}

/* Takes the number of a step, and spells its line. */
static inline void take_number(struct message *m, const struct step *step, const uint8_t *s) {
    uint64_t value = load(s, step->width, m->little);
    uint32_t n = (uint32_t)value;
    if (value > kinds[step->what].most) refuse("a number out of its range, or a part that isn't known");
    uint8_t *p = line_of(m, step);
    m->step++;
    switch (step->what) {
    case REQUEST_ID: m->id = n; /* fall through */
    case OCTET: case USHORT: case ULONG: case TAG: case TARGET: case CONTEXTS: p = put_number(p, n); break;
    case LONG: *p = '-', p = put_number(p + (n >> 31), n >> 31 ? 0 - n : n); break;
    case LONGLONG: *p = '-', p = put_long(p + (value >> 63), value >> 63 ? 0 - value : value); break;
    case DOUBLE: p = put_hex4(put_hex4(p, (uint32_t)(value >> 32)), n); break;
    case BOOLEAN: p = n ? put(p, "true") : put(p, "false"); break;
    case COLOUR: p = n == 0 ? put(p, "red") : n == 1 ? put(p, "green") : put(p, "blue"); break;
    case SWITCH: p = put_number(p, n), m->step = n ? step->other : m->step; break;
    case COUNT: p = put_number(p, n), open_sequence(m, step, n); break;
    case LENGTH: p = put_number(p, n), m->end = m->at + n; break;
    case ORDER:
        p = n ? put(p, "little") : put(p, "big");
        m->outer_little = m->little, m->little = n, m->origin = m->at - 1;
        break;
    default: break;
    }
    end_line(p);
}

/* The end of a content, whose last piece is given. */
static void end_content(struct message *m, const struct step *step, const uint8_t *s, uint32_t count) {
    m->in_content = 0;
    if (step->what == REST) end_value(m);
    else m->step++;
    if (step->what != OPERATION) return;
    if (m->offset) refuse("another operation");
    m->body = body_of(s, count);
    uint8_t *p = put(put_number(put(line_of_number(m->number), "call "), m->id), " ");
    memcpy(p, s, PIECE);
    end_line(p + count);
}

/* Takes a piece of content, and spells its line. */
static inline void take_piece(struct message *m, const struct step *step, const uint8_t *s) {
    int is_text = step->what == STRING || step->what == OPERATION;
    uint32_t count = m->left > PIECE ? PIECE : m->left;
    uint8_t *p = put_number(line_of(m, step), m->offset);
    if (is_text) p = put(put_text(put(p, " \""), s, count), "\"");
    else if (count) put_hex(put(p, " "), s), p += 1 + 2 * count;
    m->left -= count;
    if (m->left) {
        end_line(put(p, " more"));
        m->offset += count;
    } else {
        end_line(p);
        if (is_text && s[count]) refuse("string-end");
        end_content(m, step, s, count);
    }
}

/* Takes the length of a content: a string's counts its zero octet too. */
static inline void take_length(struct message *m, const struct step *step, uint32_t length) {
    if (step->what != OCTETS && length-- == 0) refuse("a string without its zero");
    m->left = length, m->offset = 0, m->in_content = 1;
    if (step->what == OCTETS && length == 0) take_piece(m, step, m->hold);
}

/* Takes a unit, all of whose octets are there. */
static inline void take_unit(struct message *m, const uint8_t *s) {
    const struct step *step = m->step;
    m->at += m->want;
    if (m->in_content) take_piece(m, step, s);
    else if (step->what < STRING) take_number(m, step, s + m->padding);
    else if (step->what < REST) take_length(m, step, (uint32_t)load(s + m->padding, 4, m->little));
    else if (step->what == PADDING) m->step = m->body;
    else refuse("octets behind the body");
    plan(m);
}

/* Takes a run of a message's octets. What is left of them at the end is held. */
static void take(struct message *m, const uint8_t *s, const uint8_t *end) {
    while (s < end) {
        size_t there = (size_t)(end - s), count = m->want - m->held;
        const uint8_t *unit = s;
        if (m->held || there < count) {
            count = there < count ? there : count;
            memcpy(m->hold + m->held, s, count);
            m->held += (uint32_t)count;
            if (m->held < m->want) return;
            m->held = 0, unit = m->hold;
        }
        s += count;
        take_unit(m, unit);
    }
}

/* ---- The messages that are open, by their ids, and the records that are free ---- */

static struct message records[MOST + 1], *free_records, *chains[MOST];

/* Where in its chain the message with that id stands, or the end of the chain. */
static struct message **find(uint32_t id) {
    struct message **at = &chains[id * 2654435769u >> 20];
    while (*at && (*at)->id != id) at = &(*at)->next;
    return at;
}

static void release(struct message *m) { m->next = free_records, free_records = m; }

static struct message *begin_message(uint64_t number, uint32_t little) {
    struct message *m = free_records;
    if (!m) refuse("too-many-open");
    free_records = m->next;
    uint8_t *p = put(put_long(put(m->prefix, "m"), number), " ");
    m->number = number;
    m->start = m->length = (uint32_t)(p - m->prefix);
    m->at = 12, m->origin = 0, m->end = UINT64_MAX;
    m->step = steps, m->little = little, m->held = m->in_content = 0;
    plan(m);
    return m;
}

static void end_message(struct message *m) {
    if (m->step->what != OVER || m->held) refuse("short");
    end_line(put(line_of_number(m->number), "end"));
    release(m);
}

/* ---- The stream ---- */

static uint8_t input[BLOCK + AHEAD];
static size_t next, filled;
static uint64_t octets, messages;

/* Whether so many octets stand at `next`; what is left of the block goes to its front for that. */
static int have(size_t count) {
    while (filled - next < count) {
        memmove(input, input + next, filled - next);
        filled -= next, next = 0;
        ssize_t more = read(0, input + filled, BLOCK - filled);
        if (more <= 0) return 0;
        filled += (size_t)more;
        octets += (uint64_t)more;
    }
    return 1;
}

static void take_payload(struct message *m, uint32_t size) {
    while (size) {
        if (!have(1)) refuse("truncated");
        size_t count = filled - next < size ? filled - next : size;
        take(m, input + next, input + next + count);
        next += count;
        size -= (uint32_t)count;
    }
}

static void fragment(uint32_t little, int more, uint32_t size) {
    if (size < 4 || !have(4)) refuse("short");
    uint32_t id = (uint32_t)load(input + next, 4, little);
    next += 4;
    end_line(put_number(put(line_of_number(messages), "header.request_id ulong "), id));
    struct message **at = find(id), *m = *at;
    if (!m) refuse("no-open");
    if (m->little != little && m->origin == 0) refuse("fragment-order");
    end_line(put_long(put(line_of_number(messages), "continues m"), m->number));
    take_payload(m, size - 4);
    if (more) return;
    *at = m->next;
    end_message(m);
}

static void request(uint32_t little, int more, uint32_t size) {
    struct message *m = begin_message(messages, little);
    take_payload(m, size);
    if (!more) {
        end_message(m);
        return;
    }
    struct message **at = find(m->id);
    if (m->step == steps || *at || !free_records) refuse("short, id-open or too-many-open");
    *at = m, m->next = NULL;
}

int main(int count, char **words) {
    int open = count > 1 ? atoi(words[1]) : 16;
    if (open < 1 || open > MOST) refuse("its number of open messages");
    make_steps();
    for (int i = 0; i <= open; i++) release(&records[i]);
    while (have(12)) {
        const uint8_t *header = input + next;
        int more = header[6] >> 1 & 1, type = header[7];
        uint32_t little = header[6] & 1, size = (uint32_t)load(header + 8, 4, little);
        if (memcmp(header, "GIOP\1\2", 6)) refuse("another version");
        next += 12, messages++;
        uint8_t *p = put(line_of_number(messages), "start 1.2 ");
        p = little ? put(p, "little ") : put(p, "big ");
        p = type == 0 ? put(p, "Request") : type == 5 ? put(p, "CloseConnection") : put(p, "Fragment");
        p = put_number(put(p, " size "), size);
        end_line(more ? put(p, " more") : p);
        if (type == 0) request(little, more, size);
        else if (type == 7) fragment(little, more, size);
        else if (type == 5 && size == 0) end_line(put(line_of_number(messages), "end"));
        else refuse("another type of message");
    }
    if (next != filled) refuse("truncated");
    uint8_t *p = put_long(put(begin_line(), "total messages "), messages);
    end_line(put_long(put(p, " faults 0 octets "), octets));
    flush();
    return 0;
}
