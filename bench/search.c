// The breadth-first search of docs/MODEL.md over the scheme of a text, by hand in C: what the proved code is measured
// against. The reader takes accepted texts only, and checks nothing.
#include "search.h"

#include <string.h>

enum { ATTRIBUTES = 4, RIGHTS = 16, OBJECTS = 8, POLICIES = 32, CLAUSES = 6, QUERIES = 16, NAME = 16 };

// ---------------------------------------------------------------- schemes

// The values of a subject and an object lie in one array, that of attribute a at a and at ATTRIBUTES + a. A value v is
// kept as v + 1, and null as 0. So is a number that is compared or assigned.

enum test { IS_NULL, IS_SET, EQUAL, DIFFERENT, LESS, AT_MOST, GREATER, AT_LEAST };
enum verb { ASSIGN, COPY, ADD, SUB, DESTROY };

struct predicate {
    uint8_t test, left;
    uint8_t is_term; // the right side is the value at `right`, otherwise it is `right`
    uint16_t right;
};

struct action {
    uint8_t verb, target; // DESTROY: 0 for the subject, 1 for the object
    uint16_t operand;     // COPY: where the source is
};

struct policy {
    uint32_t right, predicates, actions;
    struct predicate predicate[CLAUSES];
    struct action action[CLAUSES];
};

struct scheme {
    uint32_t attributes, rights, objects, policies, queries;
    uint32_t size[ATTRIBUTES];              // plus 1, so that it bounds the values as they are kept
    uint32_t weight[ATTRIBUTES];            // of an attribute in a code
    uint32_t place[OBJECTS];                // of an object's code in the number of a state
    uint32_t base, states, start;
    uint16_t value[OBJECTS][ATTRIBUTES];    // in the start state
    struct policy policy[POLICIES];
    struct { uint32_t subject, object, right; } query[QUERIES];
    char attribute_name[ATTRIBUTES][NAME], right_name[RIGHTS][NAME], object_name[OBJECTS][NAME];
};

// ---------------------------------------------------------------- the reader

struct word {
    const char *at;
    size_t len;
};

static int is_word(struct word w, const char *s) { return strlen(s) == w.len && memcmp(w.at, s, w.len) == 0; }

static void keep_name(char *name, struct word w) {
    memcpy(name, w.at, w.len);
    name[w.len] = 0;
}

static uint32_t find_name(char (*names)[NAME], uint32_t count, struct word w) {
    uint32_t i = 0;
    while (i < count && !is_word(w, names[i])) i++;
    return i;
}

static uint32_t number(struct word w) {
    uint32_t n = 0;
    for (size_t i = 0; i < w.len; i++) n = 10 * n + (uint32_t)(w.at[i] - '0');
    return n;
}

static int is_term(struct word w) { return w.len > 2 && w.at[1] == '.'; }

static uint8_t term(struct scheme *s, struct word w) {
    struct word name = {w.at + 2, w.len - 2};
    return (uint8_t)((w.at[0] == 'o' ? ATTRIBUTES : 0) + find_name(s->attribute_name, s->attributes, name));
}

static struct predicate predicate(struct scheme *s, struct word *w, int words) {
    static const char *const signs[] = {"null", "set", "=", "!=", "<", "<=", ">", ">="};
    struct predicate p = {.left = term(s, w[1])};
    while (!is_word(w[2], signs[p.test])) p.test++;
    if (words == 4) {
        p.is_term = (uint8_t)is_term(w[3]);
        p.right = p.is_term ? term(s, w[3]) : (uint16_t)(number(w[3]) + 1);
    }
    return p;
}

static struct action action(struct scheme *s, struct word *w, int words) {
    if (words == 3) return (struct action){DESTROY, w[2].at[0] == 'o', 0};
    uint8_t target = term(s, w[1]);
    if (is_word(w[2], "add")) return (struct action){ADD, target, (uint16_t)number(w[3])};
    if (is_word(w[2], "sub")) return (struct action){SUB, target, (uint16_t)number(w[3])};
    if (is_term(w[3])) return (struct action){COPY, target, term(s, w[3])};
    return (struct action){ASSIGN, target, is_word(w[3], "-") ? 0 : (uint16_t)(number(w[3]) + 1)};
}

static void declare(struct scheme *s, struct word *w, int words) {
    if (is_word(w[0], "attr")) {
        keep_name(s->attribute_name[s->attributes], w[1]);
        s->size[s->attributes++] = number(w[2]) + 1;
    } else if (is_word(w[0], "right")) {
        keep_name(s->right_name[s->rights++], w[1]);
    } else if (is_word(w[0], "object")) {
        keep_name(s->object_name[s->objects], w[1]);
        for (uint32_t a = 0; a < s->attributes; a++)
            s->value[s->objects][a] = is_word(w[a + 2], "-") ? 0 : (uint16_t)(number(w[a + 2]) + 1);
        s->objects++;
    } else if (is_word(w[0], "policy")) {
        s->policy[s->policies++].right = find_name(s->right_name, s->rights, w[2]);
    } else if (is_word(w[0], "if")) {
        struct policy *p = &s->policy[s->policies - 1];
        p->predicate[p->predicates++] = predicate(s, w, words);
    } else if (is_word(w[0], "do")) {
        struct policy *p = &s->policy[s->policies - 1];
        p->action[p->actions++] = action(s, w, words);
    } else if (is_word(w[0], "query")) {
        s->query[s->queries].subject = find_name(s->object_name, s->objects, w[1]);
        s->query[s->queries].object = find_name(s->object_name, s->objects, w[2]);
        s->query[s->queries++].right = find_name(s->right_name, s->rights, w[3]);
    }
}

static void number_states(struct scheme *s) {
    uint32_t combinations = 1;
    for (uint32_t a = 0; a < s->attributes; a++) {
        s->weight[a] = combinations;
        combinations *= s->size[a];
    }
    s->base = 1 + combinations;
    s->states = 1;
    for (uint32_t i = 0; i < s->objects; i++) {
        uint32_t code = 1;
        for (uint32_t a = 0; a < s->attributes; a++) code += s->value[i][a] * s->weight[a];
        s->place[i] = s->states;
        s->start += code * s->states;
        s->states *= s->base;
    }
}

static void read_scheme(struct scheme *s, const uint8_t *text, size_t len) {
    const char *at = (const char *)text, *end = at + len;
    memset(s, 0, sizeof *s);
    while (at < end) {
        struct word words[ATTRIBUTES + 2];
        int count = 0;
        while (at < end && *at != '\n') {
            while (at < end && *at == ' ') at++;
            const char *from = at;
            while (at < end && *at != ' ' && *at != '\n') at++;
            if (at > from) words[count++] = (struct word){from, (size_t)(at - from)};
        }
        at++;
        if (count) declare(s, words, count);
    }
    number_states(s);
}

struct counts search_counts(const uint8_t *text, size_t text_len) {
    struct scheme s;
    read_scheme(&s, text, text_len);
    return (struct counts){s.states, s.policies * s.objects * s.objects, s.queries};
}

// ---------------------------------------------------------------- steps

struct state {
    uint32_t number;
    uint32_t there[OBJECTS];
    uint32_t code[OBJECTS];
    uint16_t value[OBJECTS][ATTRIBUTES];
};

static void decode(const struct scheme *s, uint32_t number, struct state *state) {
    state->number = number;
    for (uint32_t i = 0; i < s->objects; i++) {
        uint32_t code = number % s->base;
        number /= s->base;
        state->code[i] = code;
        state->there[i] = code != 0;
        if (code == 0) continue;
        code--;
        for (uint32_t a = 0; a < s->attributes; a++) {
            state->value[i][a] = (uint16_t)(code % s->size[a]);
            code /= s->size[a];
        }
    }
}

static inline int holds(const struct predicate *p, const uint16_t *values) {
    uint32_t left = values[p->left];
    uint32_t right = p->is_term ? values[p->right] : p->right;
    switch (p->test) {
    case IS_NULL: return left == 0;
    case IS_SET: return left != 0;
    case EQUAL: return left && left == right;
    case DIFFERENT: return left && right && left != right;
    case LESS: return left && left < right;
    case AT_MOST: return left && left <= right;
    case GREATER: return right && left > right;
    default: return right && left >= right;
    }
}

// Applies a policy to objects that are there and differ. Answers 0 if there is no step, and else writes the next state.
static inline int step(const struct scheme *s, const struct policy *p, const struct state *state, uint32_t subject,
                       uint32_t object, uint32_t *next) {
    uint16_t values[2 * ATTRIBUTES];
    memcpy(values, state->value[subject], sizeof state->value[subject]);
    memcpy(values + ATTRIBUTES, state->value[object], sizeof state->value[object]);
    for (uint32_t i = 0; i < p->predicates; i++)
        if (!holds(&p->predicate[i], values)) return 0;
    uint32_t code[2] = {state->code[subject], state->code[object]};   // 0 when it is destroyed
    for (uint32_t i = 0; i < p->actions; i++) {
        const struct action *a = &p->action[i];
        if (a->verb == DESTROY) {
            if (code[a->target] == 0) return 0;
            code[a->target] = 0;
            continue;
        }
        uint32_t party = a->target / ATTRIBUTES, attribute = a->target % ATTRIBUTES;
        if (code[party] == 0) return 0;
        uint32_t old = values[a->target], new;
        switch (a->verb) {
        case ASSIGN: new = a->operand; break;
        case COPY:
            if (code[a->operand / ATTRIBUTES] == 0) return 0;
            new = values[a->operand];
            break;
        case ADD:
            if (old == 0) return 0;
            new = old + a->operand;
            break;
        default:
            if (old <= a->operand) return 0;
            new = old - a->operand;
        }
        if (new >= s->size[attribute]) return 0;
        values[a->target] = (uint16_t)new;
        code[party] += (new - old) * s->weight[attribute];
    }
    *next = state->number + (code[0] - state->code[subject]) * s->place[subject]
            + (code[1] - state->code[object]) * s->place[object];
    return 1;
}

// ---------------------------------------------------------------- the search

static uint32_t write_witness(const struct found *found, uint32_t place, uint32_t move, uint32_t *witness) {
    uint32_t length = 1;
    for (uint32_t at = place; at != 0; at = found[at].parent) length++;
    uint32_t i = length - 1;
    witness[i] = move;
    for (uint32_t at = place; at != 0; at = found[at].parent) witness[--i] = found[at].move;
    return length;
}

uint32_t search_analyse(const uint8_t *text, size_t text_len, uint32_t query, uint32_t *marks, size_t marks_len,
                        struct found *found, size_t found_len, uint32_t *witness, size_t witness_len,
                        struct answer *answer) {
    struct scheme s;
    read_scheme(&s, text, text_len);
    if (marks_len < s.states || found_len < s.states || witness_len < s.states) return 31;
    const uint32_t n = s.objects, moves = s.policies * n * n;
    const uint32_t q_subject = s.query[query].subject, q_object = s.query[query].object, q_right = s.query[query].right;
    memset(marks, 0, s.states * sizeof *marks);
    marks[s.start] = 1;
    found[0] = (struct found){s.start, 0, 0};
    uint32_t count = 1;
    for (uint32_t place = 0; place < count; place++) {
        struct state state;
        decode(&s, found[place].state, &state);
        for (uint32_t p = 0; p < s.policies; p++) {
            const struct policy *policy = &s.policy[p];
            for (uint32_t subject = 0; subject < n; subject++) {
                if (!state.there[subject]) continue;
                for (uint32_t object = 0; object < n; object++) {
                    uint32_t next;
                    if (object == subject || !state.there[object] || !step(&s, policy, &state, subject, object, &next))
                        continue;
                    uint32_t move = (p * n + subject) * n + object;
                    if (subject == q_subject && object == q_object && policy->right == q_right) {
                        *answer = (struct answer){1, count, (uint64_t)place * moves + move + 1,
                                                  write_witness(found, place, move, witness)};
                        return 0;
                    }
                    if (marks[next] == 0) {
                        found[count] = (struct found){next, place, move};
                        marks[next] = ++count;
                    }
                }
            }
        }
    }
    *answer = (struct answer){0, count, (uint64_t)count * moves, 0};
    return 0;
}
