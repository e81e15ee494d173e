/* The proved checker's algorithm in C, to time the two against each other: the same work memory, sweeps and order of tests, and the
   same answers. */
#include "checker.h"
#include <string.h>

enum { WORDS = 16384, BYTES = 8192, MOST_FILE = 1048576, IN_FORMULA = 1 << 20, IN_PROOF = 2 << 20 };
enum { HEAD = 0x01, CLAUSE = 0x02, RUP = 0x11, SR = 0x12, WSR = 0x13, DELETE = 0x14, WITNESS = 0x21, MODULO = 0x22 };
enum { REFUTED, HELD, REFUSED };

struct file { const uint8_t *bytes; size_t length; };
struct extent { size_t start, size; };
struct fault { unsigned reason; size_t place; };

/* All that a call works on. A word is the file and offset of a clause's tag, or tells where to go on; a variable has two bytes: value (0 unset, 1 true,
   2 false) in two bits, 4 if it is mapped, and the code of its image in the other thirteen. */
struct work {
    struct file formula, proof;
    uint32_t *words;
    uint8_t *t;
    size_t vars, next;
};

static unsigned pair(const uint8_t *s) { return (unsigned)s[0] << 8 | s[1]; }

static int value(const uint8_t *t, unsigned code) { return t[code & ~1u] & 3; }
static int is_true(const uint8_t *t, unsigned code) { return value(t, code) == (int)(code & 1) + 1; }

static void make_true(uint8_t *t, unsigned code) {
    uint8_t *v = t + (code & ~1u);
    *v = (uint8_t)((*v & ~3u) | ((code & 1) + 1));
}

static unsigned image_of(const uint8_t *t, unsigned code) {
    const uint8_t *v = t + (code & ~1u);
    unsigned image = *v & 4 ? (unsigned)(*v >> 3) << 8 | v[1] : code & ~1u;
    return image ^ (code & 1);
}

static void clear_values(uint8_t *t, size_t vars) {
    for (size_t v = 0; v <= vars; v++) t[2 * v] &= 0xfc;
}

/* The payload of the field with that tag at a place, whose length divides by unit: 1, or 0 if no such field stands there. */
static int expect(struct file f, size_t at, unsigned tag, unsigned unit, struct extent *e) {
    if (f.length <= at || f.length - at < 3 || f.bytes[at] != tag) return 0;
    e->start = at + 3;
    e->size = pair(f.bytes + at + 1);
    return e->size <= f.length - e->start && e->size % unit == 0;
}

static const uint8_t *clause_at(const struct work *w, size_t n, size_t *size) {
    uint32_t word = w->words[n];
    const uint8_t *tag = (word & IN_FORMULA ? w->formula.bytes : w->proof.bytes) + (word & (IN_FORMULA - 1));
    *size = pair(tag + 1);
    return tag + 3;
}

static int is_live(const struct work *w, size_t n) { return w->words[n] >= IN_FORMULA; }

/* The first number from n on that may be live. */
static size_t onward(const struct work *w, size_t n) {
    return n < w->next && !is_live(w, n) && w->words[n] > n ? w->words[n] : n;
}

/* The word tells where to go on, and so do those of the numbers right below it that are not live. */
static void remove_clause(struct work *w, size_t n) {
    uint32_t later = (uint32_t)onward(w, n + 1);
    w->words[n] = later;
    while (n > 0 && !is_live(w, n - 1)) w->words[--n] = later;
}

/* What is wrong with a clause's codes: 1 (one out of range) or 2 (a variable twice), with its place; 0 if nothing is. */
static int check_clause(const uint8_t *s, struct extent e, size_t vars, uint8_t *t, size_t *place) {
    size_t i, k, end = e.start + e.size;
    for (i = e.start; i < end; i += 2) {
        unsigned code = pair(s + i);
        if (code < 2 || code > 2 * vars + 1) {
            *place = i;
            return 1;
        }
    }
    for (i = e.start; i < end && value(t, pair(s + i)) == 0; i += 2) t[pair(s + i) & ~1u] |= 1;
    for (k = e.start; k < i; k += 2) t[pair(s + k) & ~1u] &= 0xfc;
    if (i < end) {
        *place = i;
        return 2;
    }
    return 0;
}

static struct fault fault(unsigned reason, size_t place) { return (struct fault){reason, place}; }

static struct fault read_formula(struct work *w) {
    struct file f = w->formula;
    struct extent e;
    size_t place, m, at = 7;
    if (!expect(f, 0, HEAD, 1, &e) || e.size != 4) return fault(3, 0);
    w->vars = pair(f.bytes + 3);
    m = pair(f.bytes + 5);
    if (w->vars > 4095 || m > 16383) return fault(4, 0);
    for (size_t k = 1; k <= m; k++) {
        if (f.length <= at) return fault(7, at);
        if (!expect(f, at, CLAUSE, 2, &e)) return fault(3, at);
        switch (check_clause(f.bytes, e, w->vars, w->t, &place)) {
        case 1: return fault(5, place);
        case 2: return fault(6, place);
        }
        w->words[k] = (uint32_t)(IN_FORMULA + at);
        at = e.start + e.size;
    }
    w->next = m + 1;
    return at < f.length ? fault(7, at) : fault(0, 0);
}

/* One sweep over the live clauses: 1 at a clash; *set counts the literals that it sets. */
static int sweep(const struct work *w, size_t *set) {
    uint8_t *t = w->t;
    for (size_t k = 0; k < w->next;) {
        size_t size;
        unsigned unset = 0;
        const uint8_t *c, *end;
        if (!is_live(w, k)) {
            k = onward(w, k + 1);
            continue;
        }
        c = clause_at(w, k, &size);
        for (end = c + size; c < end; c += 2) {
            unsigned code = pair(c);
            int v = value(t, code);
            if (v == 0) {
                if (unset) goto next_clause;
                unset = code;
            } else if (v == (int)(code & 1) + 1)
                goto next_clause;
        }
        if (unset == 0) return 1;
        make_true(t, unset);
        ++*set;
    next_clause:
        k++;
    }
    return 0;
}

/* Whether propagation from the values in the table clashes. */
static int propagate(const struct work *w) {
    size_t set;
    do {
        set = 0;
        if (sweep(w, &set)) return 1;
    } while (set);
    return 0;
}

static void assume_clause(const uint8_t *s, struct extent c, uint8_t *t) {
    for (size_t i = c.start; i < c.start + c.size; i += 2) make_true(t, pair(s + i) ^ 1);
}

/* Whether an image is true already; else the complements of all images are true now. */
static int assume_images(const uint8_t *d, size_t size, uint8_t *t) {
    for (const uint8_t *end = d + size; d < end; d += 2) {
        unsigned a = image_of(t, pair(d));
        if (a == 0) return 1;
        if (a == 1) continue;
        if (is_true(t, a)) return 1;
        make_true(t, a ^ 1);
    }
    return 0;
}

static void unset_clause(const uint8_t *s, struct extent c, uint8_t *t) {
    for (size_t i = c.start; i < c.start + c.size; i += 2) t[pair(s + i) & ~1u] &= 0xfc;
}

static void unset_images(const uint8_t *d, size_t size, uint8_t *t) {
    for (const uint8_t *end = d + size; d < end; d += 2) t[image_of(t, pair(d)) & ~1u] &= 0xfc;
}

static int is_rup(const struct work *w, struct extent c) {
    int clash;
    assume_clause(w->proof.bytes, c, w->t);
    clash = propagate(w);
    clear_values(w->t, w->vars);
    return clash;
}

static int passes(const struct work *w, struct extent c, const uint8_t *d, size_t size) {
    int clash;
    assume_clause(w->proof.bytes, c, w->t);
    if (assume_images(d, size, w->t)) {
        unset_clause(w->proof.bytes, c, w->t);
        unset_images(d, size, w->t);
        return 1;
    }
    clash = propagate(w);
    clear_values(w->t, w->vars);
    return clash;
}

static int trivialises(const struct work *w, struct extent c) {
    int yes = assume_images(w->proof.bytes + c.start, c.size, w->t);
    unset_images(w->proof.bytes + c.start, c.size, w->t);
    return yes;
}

/* The lowest number of a clause outside the list that does not pass, or 0. */
static size_t lowest_failing(const struct work *w, struct extent c, struct extent modulo) {
    size_t size, at = modulo.start, end = at + modulo.size;
    for (size_t n = 0; n < w->next; n++) {
        if (at < end && pair(w->proof.bytes + at) == n) {
            at += 2;
        } else if (is_live(w, n)) {
            const uint8_t *d = clause_at(w, n, &size);
            if (!passes(w, c, d, size)) return n;
        }
    }
    return 0;
}

static struct fault check_mappings(const uint8_t *s, struct extent e, size_t vars) {
    for (size_t i = e.start; i < e.start + e.size; i += 4) {
        unsigned v = pair(s + i);
        if (v < 1 || v > vars) return fault(9, i);
        if (pair(s + i + 2) > 2 * vars + 1) return fault(9, i + 2);
    }
    return fault(0, 0);
}

static void unload_witness(const uint8_t *s, size_t start, size_t end, uint8_t *t) {
    for (size_t i = start; i < end; i += 4) {
        uint8_t *v = t + 2 * pair(s + i);
        v[0] &= 3;
        v[1] = 0;
    }
}

static struct fault load_witness(const uint8_t *s, struct extent e, uint8_t *t) {
    for (size_t i = e.start; i < e.start + e.size; i += 4) {
        uint8_t *v = t + 2 * pair(s + i);
        unsigned code = pair(s + i + 2);
        if (*v & 4) {
            unload_witness(s, e.start, i, t);
            return fault(10, i);
        }
        v[0] = (uint8_t)((v[0] & 3) | 4 | code >> 8 << 3);
        v[1] = (uint8_t)code;
    }
    return fault(0, 0);
}

static struct fault check_numbers(const struct work *w, struct extent e) {
    unsigned last = 0;
    for (size_t i = e.start; i < e.start + e.size; i += 2) {
        unsigned n = pair(w->proof.bytes + i);
        if (n <= last || n >= WORDS || !is_live(w, n)) return fault(11, i);
        last = n;
    }
    return fault(0, 0);
}

/* The conditions of a step that adds the clause c, with its witness in the table. */
static struct fault judge(const struct work *w, unsigned tag, struct extent c, struct extent numbers) {
    size_t n;
    if (tag == RUP) return is_rup(w, c) ? fault(0, 0) : fault(13, 0);
    if (tag == SR && !trivialises(w, c)) return fault(14, 0);
    n = lowest_failing(w, c, numbers);
    if (n) return fault(15, n);
    if (tag == WSR && !passes(w, c, w->proof.bytes + c.start, c.size)) return fault(15, w->next);
    return fault(0, 0);
}

/* One step at *at, which moves past it. */
static struct fault take_step(struct work *w, size_t *at) {
    const uint8_t *s = w->proof.bytes;
    unsigned tag = s[*at];
    struct extent c, witness = {0, 0}, numbers = {0, 0};
    struct fault f;
    size_t place, end;
    if (tag < RUP || tag > DELETE || !expect(w->proof, *at, tag, 2, &c)) return fault(8, *at);
    end = c.start + c.size;
    if (tag == SR || tag == WSR) {
        if (!expect(w->proof, end, WITNESS, 4, &witness)) return fault(8, end);
        end = witness.start + witness.size;
    }
    if (tag == WSR) {
        if (!expect(w->proof, end, MODULO, 2, &numbers)) return fault(8, end);
        end = numbers.start + numbers.size;
    }
    if (tag == DELETE) {
        f = check_numbers(w, c);
        if (f.reason) return f;
        numbers = c;
    } else {
        switch (check_clause(s, c, w->vars, w->t, &place)) {
        case 1: return fault(9, place);
        case 2: return fault(10, place);
        }
        f = check_mappings(s, witness, w->vars);
        if (!f.reason) f = load_witness(s, witness, w->t);
        if (f.reason) return f;
        f = check_numbers(w, numbers);
        if (!f.reason && w->next >= WORDS) f = fault(12, *at);
        if (!f.reason) f = judge(w, tag, c, numbers);
        unload_witness(s, witness.start, witness.start + witness.size, w->t);
        if (f.reason) return f;
    }
    for (size_t i = numbers.start + numbers.size; i > numbers.start; i -= 2) remove_clause(w, pair(s + i - 2));
    if (tag != DELETE) w->words[w->next++] = (uint32_t)(IN_PROOF + *at);
    *at = end;
    return f;
}

static int has_empty(const struct work *w) {
    size_t size;
    for (size_t n = 0; n < w->next; n++)
        if (is_live(w, n) && (clause_at(w, n, &size), size == 0)) return 1;
    return 0;
}

static void answer(uint64_t out[4], unsigned verdict, struct fault f, size_t step) {
    out[0] = verdict;
    out[1] = f.reason;
    out[2] = step;
    out[3] = f.place;
}

static void judge_files(struct work *w, uint64_t out[4]) {
    struct fault f;
    size_t at = 0, done = 0;
    if (w->formula.length > MOST_FILE || w->proof.length > MOST_FILE) {
        answer(out, REFUSED, fault(2, 0), 0);
        return;
    }
    f = read_formula(w);
    if (f.reason) {
        answer(out, REFUSED, f, 0);
        return;
    }
    while (at < w->proof.length) {
        f = take_step(w, &at);
        if (f.reason) {
            answer(out, REFUSED, f, done + 1);
            return;
        }
        done++;
    }
    answer(out, has_empty(w) ? REFUTED : HELD, fault(0, 0), done);
}

void plain_check(const uint8_t *formula, size_t formula_length, const uint8_t *proof, size_t proof_length,
                 uint32_t *words, size_t words_length, uint8_t *bytes, size_t bytes_length, uint64_t out[4]) {
    struct work w = {{formula, formula_length}, {proof, proof_length}, words, bytes, 0, 0};
    if (words_length < WORDS || bytes_length < BYTES) {
        answer(out, REFUSED, fault(1, 0), 0);
        return;
    }
    memset(words, 0, WORDS * sizeof *words);
    memset(bytes, 0, BYTES);
    judge_files(&w, out);
    memset(words, 0, WORDS * sizeof *words);
    memset(bytes, 0, BYTES);
}
