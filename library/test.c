/* Makes all calls of the library on archives, in buffers that lie between pages which nobody may touch: once flush with
 * the page behind, once with the page before. `library/test` builds it, with AddressSanitizer, and reads what it tells.
 *
 *     test THREADS STARVED <LIST
 *
 * LIST has a line "BASE PAGE.." for each archive. What is told of it goes to BASE.told. If STARVED is 1, each call that
 * takes memory is also made with the first allocation refused, with the second, and so on. */
#define _GNU_SOURCE
#include <pthread.h>
#include <stdio.h>
#include <stdlib.h>
#include <string.h>
#include <sys/mman.h>
#include "webgraph.h"

enum { PAGE = 4096, FILL = 0xa5, WEIGHED = 2, RANGE = 4 /* the pages of a range that is told */, WIDE = 1 << 16 };

static __thread long fail_at, allocations;
static __thread int at_front;
static int starved;

void *__real_malloc(size_t size);
void *__real_realloc(void *old, size_t size);
void *__wrap_malloc(size_t size) { return ++allocations == fail_at ? NULL : __real_malloc(size); }
void *__wrap_realloc(void *old, size_t size) { return ++allocations == fail_at ? NULL : __real_realloc(old, size); }

static void die(const char *base, const char *what, unsigned status) {
    fprintf(stderr, "%s: %s: status %u\n", base, what, status);
    abort();
}

/* ---- Buffers */
typedef struct {
    unsigned char *all, *at;
    size_t pages, bytes;
} buffer;

static buffer buffer_of(size_t bytes) {
    buffer made = {.pages = bytes / PAGE + 3, .bytes = bytes};
    made.all = mmap(NULL, made.pages * PAGE, PROT_NONE, MAP_PRIVATE | MAP_ANONYMOUS, -1, 0);
    if (made.all == MAP_FAILED || mprotect(made.all + PAGE, (made.pages - 2) * PAGE, PROT_READ | PROT_WRITE)) abort();
    made.at = at_front ? made.all + PAGE : made.all + (made.pages - 1) * PAGE - bytes;
    memset(made.at, FILL, bytes);
    return made;
}
static buffer words_of(size_t count) { return buffer_of(8 * count); }
static void drop(buffer it) { munmap(it.all, it.pages * PAGE); }
static uint64_t *u64(buffer it) { return (uint64_t *)it.at; }
static int untouched(buffer it) {
    for (size_t i = 0; i < it.bytes; i++)
        if (it.at[i] != FILL) return 0;
    return 1;
}

static buffer file_of(const char *base, const char *suffix) {
    char name[4096];
    snprintf(name, sizeof name, "%s.%s", base, suffix);
    FILE *file = fopen(name, "rb");
    if (!file || fseek(file, 0, SEEK_END)) die(base, name, 0);
    buffer made = buffer_of((size_t)ftell(file));
    rewind(file);
    if (fread(made.at, 1, made.bytes, file) != made.bytes) die(base, name, 0);
    fclose(file);
    return made;
}

/* ---- What is told */
static void tell(FILE *told, const char *call, unsigned status, const wg_fault *fault) {
    static const char *fields[] = {"outdegree", "reference", "blockcount", "block", "copied", "intervalcount", "left",
                                   "length", "residual", "record"};
    static const char *kinds[] = {"cut", "noword", "range", "chain", "total", "copied", "twice"};
    static const char *words[] = {"cut", "noword", "", "too far"};
    unsigned long long page = fault->page, at = fault->at;
    fprintf(told, "%s %u", call, status);
    if (status == WG_BAD_ARCHIVE) switch (fault->which) {
        case 1: fprintf(told, " page %llu bit %llu %s %s", page, at, fields[fault->field], kinds[fault->kind]); break;
        case 2: case 9: fprintf(told, " tail bit %llu", at); break;
        case 3: fprintf(told, " arcs %llu", at); break;
        case 4: fprintf(told, " page %llu length %llu stored %llu", page, (unsigned long long)fault->found,
                        (unsigned long long)fault->stored); break;
        case 7: fprintf(told, " first word"); break;
        default: fprintf(told, " word %llu %s", page, words[fault->which - 5]);
    }
}
static void tell_words(FILE *told, const uint64_t *words, uint64_t count) {
    for (uint64_t i = 0; i < count; i++) fprintf(told, " %llu", (unsigned long long)words[i]);
    fputc('\n', told);
}

/* Makes a call, and before that with each of its allocations refused in turn; `clear` looks at what that has left. */
#define CALL(status, call, clear) \
    do { \
        for (long k = 1; starved; k++) { \
            allocations = 0, fail_at = k, status = call, fail_at = 0; \
            if (allocations < k) break; \
            if (status != WG_MEMORY) die(base, #call, status); \
            clear; \
        } \
        status = call; \
    } while (0)
#define WANT(wanted, call) \
    do { \
        unsigned is = call; \
        if (is != (wanted)) die(base, #call, is); \
    } while (0)

/* ---- The calls */
typedef struct {
    const char *base;
    buffer params_at, fault_at, graph, file, places;
    wg_params *params;
    wg_fault *fault;
    FILE *told;
    int has_places;
} archive;

#define GRAPH a->params, a->graph.at, a->graph.bytes
#define PLACES u64(a->places), a->places.bytes / 8

static void pages_alone(archive *a, const uint64_t *pages, size_t count) {
    const char *base = a->base;
    buffer told_at = buffer_of(8), asked = words_of(count), ends = words_of(count), wide = words_of(1 << 16);
    uint64_t *outdegree = u64(told_at), used = 0;
    unsigned status = 0, first = 0;
    size_t read = 0;
    memcpy(asked.at, pages, 8 * count);
    for (size_t i = 0; i < count; i++) {
        buffer none = words_of(0);
        CALL(status, wg_successors(GRAPH, PLACES, pages[i], u64(none), 0, outdegree, a->fault), (void)0);
        drop(none);
        uint64_t room = status == WG_NO_ROOM ? *outdegree : 0;
        buffer out = words_of(room);
        if (status == WG_NO_ROOM) {
            CALL(status, wg_successors(GRAPH, PLACES, pages[i], u64(out), room, outdegree, a->fault),
                 if (!untouched(out)) die(base, "touched", 3));
            if (status) die(base, "room", status);
        }
        fprintf(a->told, "page %llu ", (unsigned long long)pages[i]);
        tell(a->told, "is", status, a->fault);
        tell_words(a->told, u64(out), status ? 0 : room);
        if (!first && status) first = status;
        if (!first) memcpy(u64(wide) + used, out.at, 8 * room), used += room, read++;
        drop(out);
    }
    buffer out = words_of(used);
    CALL(status, wg_successors_of(GRAPH, PLACES, u64(asked), count, u64(ends), count, u64(out), used, outdegree,
                                  a->fault), (void)0);
    if (status != first && status != WG_NO_ROOM) die(base, "several", status);
    if (*outdegree != read || memcmp(out.at, wide.at, 8 * used)) die(base, "several differ", status);
    if (used) WANT(WG_NO_ROOM, wg_successors_of(GRAPH, PLACES, u64(asked), count, u64(ends), count, u64(out), used - 1,
                                                outdegree, a->fault));
    if (count) WANT(WG_USAGE, wg_successors_of(GRAPH, PLACES, u64(asked), count, u64(ends), count - 1, u64(out), used,
                                               outdegree, a->fault));
    drop(out), drop(wide), drop(ends), drop(asked), drop(told_at);
}

/* A range gives what the same pages give by their numbers. Where places fall, each call may stop at another one. */
static void range_alike(archive *a, uint64_t first, size_t count, size_t room, int falls) {
    buffer pages = words_of(count), done = words_of(2), ends[2] = {words_of(count), words_of(count)},
           out[2] = {words_of(room), words_of(room)};
    const char *base = a->base;
    unsigned status, other;
    for (size_t i = 0; i < count; i++) u64(pages)[i] = first + i;
    CALL(status, wg_read_range(GRAPH, PLACES, first, u64(ends[0]), count, u64(out[0]), room, u64(done), a->fault),
         (void)0);
    wg_fault is = *a->fault, *was = a->fault;
    other = wg_successors_of(GRAPH, PLACES, u64(pages), count, u64(ends[1]), count, u64(out[1]), room, u64(done) + 1,
                             was);
    uint64_t read = u64(done)[0] < u64(done)[1] ? u64(done)[0] : u64(done)[1];
    int alike = status == other && u64(done)[0] == u64(done)[1];
    if (alike && status == WG_BAD_ARCHIVE) alike = !memcmp(&is, was, 12) && !memcmp(&is.page, &was->page, 32);
    if (!alike && !(falls && status > WG_USAGE && other > WG_USAGE)) die(base, "range", status);
    if (memcmp(ends[0].at, ends[1].at, 8 * read)) die(base, "the ends of a range", status);
    if (read && memcmp(out[0].at, out[1].at, 8 * u64(ends[0])[read - 1])) die(base, "a range", status);
    for (int i = 0; i < 2; i++) drop(ends[i]), drop(out[i]);
    drop(pages), drop(done);
}

static void ranges(archive *a, const uint64_t *pages, size_t count) {
    const char *base = a->base;
    uint64_t n = a->params->nodes, first = pages[1];
    buffer ends = words_of(RANGE), out = words_of(WIDE), done = words_of(1);
    unsigned status;
    CALL(status, wg_read_range(GRAPH, PLACES, first, u64(ends), RANGE, u64(out), WIDE, u64(done), a->fault), (void)0);
    fprintf(a->told, "range %llu ", (unsigned long long)first);
    tell(a->told, "is", status, a->fault);
    tell_words(a->told, u64(ends), u64(done)[0]);
    fprintf(a->told, "listed");
    tell_words(a->told, u64(out), u64(done)[0] ? u64(ends)[u64(done)[0] - 1] : 0);
    for (size_t i = 0; i < count; i++)
        for (size_t room = 0; room < 1 << 13; room = 5 * room + 1) range_alike(a, pages[i], 9, room, 0);
    range_alike(a, 0, n, WIDE, 0), range_alike(a, n, 0, 0, 0), range_alike(a, UINT64_MAX, 1, 0, 0);
    WANT(WG_USAGE, wg_read_range(GRAPH, u64(a->places), n, first, u64(ends), RANGE, u64(out), 1, u64(done), a->fault));
    drop(ends), drop(out), drop(done);
}

static void graph_whole(archive *a) {
    const char *base = a->base;
    uint64_t n = a->params->nodes, m = a->params->arcs;
    buffer ends = words_of(n), all = words_of(m), degrees = words_of(n);
    unsigned status, other;
    CALL(status, wg_read_lists(GRAPH, u64(ends), n, u64(all), m, a->fault), (void)0);
    tell(a->told, "lists", status, a->fault);
    tell_words(a->told, u64(ends), status ? 0 : n);
    fprintf(a->told, "all");
    tell_words(a->told, u64(all), status ? 0 : m);
    WANT(WG_USAGE, wg_read_lists(GRAPH, u64(ends), n + 1, u64(all), m, a->fault));
    WANT(WG_USAGE, wg_read_lists(GRAPH, u64(ends), n, u64(all), m + 1, a->fault));
    if (n) WANT(WG_USAGE, wg_read_lists(GRAPH, u64(ends), n - 1, u64(all), m, a->fault));
    if (m) WANT(WG_USAGE, wg_read_lists(GRAPH, u64(ends), n, u64(all), m - 1, a->fault));
    CALL(other, wg_check(GRAPH, a->fault), (void)0);
    if (other != status) die(base, "wg_check", other);
    CALL(other, wg_read_outdegrees(GRAPH, u64(degrees), n, a->fault), (void)0);
    if (other != status) die(base, "wg_read_outdegrees", other);
    for (uint64_t i = 0; !status && i < n; i++)
        if (u64(degrees)[i] != u64(ends)[i] - (i ? u64(ends)[i - 1] : 0)) die(base, "outdegrees", 0);
    WANT(WG_USAGE, wg_read_outdegrees(GRAPH, u64(degrees), n + 1, a->fault));
    CALL(other, wg_check_offsets(GRAPH, a->file.at, a->file.bytes, a->fault), (void)0);
    tell(a->told, "check", other, a->fault);
    fputc('\n', a->told);
    if (other == 0) {
        buffer ends2 = words_of(n), all2 = words_of(m), done = words_of(1);
        WANT(0, wg_read_range(GRAPH, PLACES, 0, u64(ends2), n, u64(all2), m, u64(done), a->fault));
        if (memcmp(ends.at, ends2.at, 8 * n) || memcmp(all.at, all2.at, 8 * m)) die(base, "the whole range", 0);
        drop(ends2), drop(all2), drop(done);
    }
    drop(ends), drop(all), drop(degrees);
}

static void ranks(archive *a) {
    const char *base = a->base;
    uint64_t n = a->params->nodes;
    buffer low = words_of(2 * n), high = words_of(2 * n), weights = words_of(n), left = words_of(2), page = words_of(1);
    unsigned status;
    for (uint64_t i = 0; i < n; i++) u64(weights)[i] = i % 3;
    for (int weighed = 0; weighed < WEIGHED; weighed++) {
        size_t length = weighed ? n : 0;
        /* It may do without some of its memory: then the bounds are the same. */
        buffer lower = words_of(2 * n), upper = words_of(2 * n);
        unsigned wanted = wg_rank(GRAPH, u64(weights), length, 800, 3, u64(lower), 2 * n, u64(upper), 2 * n, a->fault);
        for (long k = 0; ; k++) {
            memset(low.at, FILL, low.bytes), memset(high.at, FILL, high.bytes);
            allocations = 0, fail_at = k;
            status = wg_rank(GRAPH, u64(weights), length, 800, 3, u64(low), 2 * n, u64(high), 2 * n, a->fault);
            fail_at = 0;
            if (status && !(untouched(low) && untouched(high))) die(base, "bounds touched", status);
            if (!status && (memcmp(low.at, lower.at, low.bytes) || memcmp(high.at, upper.at, high.bytes)))
                die(base, "other bounds", 0);
            if (status != wanted && status != WG_MEMORY) die(base, "rank", status);
            if (!starved || allocations < k) break;
        }
        if (status != wanted) die(base, "rank", status);
        drop(lower), drop(upper);
        tell(a->told, weighed ? "weighed" : "rank", status, a->fault);
        tell_words(a->told, u64(low), status ? 0 : 2 * n);
        fprintf(a->told, "high");
        tell_words(a->told, u64(high), status ? 0 : 2 * n);
        if (status) continue;
        CALL(status, wg_verify(GRAPH, u64(weights), length, 800, u64(low), 2 * n, (wg_wide *)left.at, u64(page),
                               a->fault), (void)0);
        tell(a->told, weighed ? "weighed-verify" : "verify", status, a->fault);
        tell_words(a->told, u64(left), status ? 0 : 2);
        if (!n) continue;
        u64(low)[1] += 9000;
        status = wg_verify(GRAPH, u64(weights), length, 800, u64(low), 2 * n, (wg_wide *)left.at, u64(page), a->fault);
        tell(a->told, weighed ? "weighed-raised" : "raised", status, a->fault);
        tell_words(a->told, u64(page), status == WG_BAD_BOUNDS);
    }
    WANT(WG_USAGE, wg_rank(GRAPH, u64(weights), 0, 1000, 3, u64(low), 2 * n, u64(high), 2 * n, a->fault));
    WANT(WG_USAGE, wg_rank(GRAPH, u64(weights), 0, 850, 10001, u64(low), 2 * n, u64(high), 2 * n, a->fault));
    WANT(WG_USAGE, wg_rank(GRAPH, u64(weights), 0, 850, 3, u64(low), 2 * n + 1, u64(high), 2 * n, a->fault));
    WANT(WG_USAGE, wg_rank(GRAPH, u64(weights), n + 1, 850, 3, u64(low), 2 * n, u64(high), 2 * n, a->fault));
    drop(low), drop(high), drop(weights), drop(left), drop(page);
}

/* The file that these places have, by more and more room, and then by just as much as it takes. */
static void offsets_again(archive *a) {
    const char *base = a->base;
    buffer length = words_of(1);
    unsigned status = WG_NO_ROOM;
    for (size_t room = 0; status == WG_NO_ROOM; room = 2 * room + 1) {
        buffer out = buffer_of(room);
        CALL(status, wg_write_offsets(a->params, PLACES, out.at, room, u64(length)), (void)0);
        if (status && status != WG_NO_ROOM) die(base, "wg_write_offsets", status);
        drop(out);
    }
    size_t bytes = u64(length)[0];
    buffer out = buffer_of(bytes);
    if (bytes) WANT(WG_NO_ROOM, wg_write_offsets(a->params, PLACES, out.at, bytes - 1, u64(length)));
    WANT(WG_USAGE, wg_write_offsets(a->params, u64(a->places), a->params->nodes, out.at, bytes, u64(length)));
    WANT(0, wg_write_offsets(a->params, PLACES, out.at, bytes, u64(length)));
    if (u64(length)[0] != bytes) die(base, "the length of the offsets", 0);
    fprintf(a->told, "file");
    for (size_t i = 0; i < bytes; i++) fprintf(a->told, "%s%02x", i ? "" : " ", out.at[i]);
    fputc('\n', a->told);
    drop(out), drop(length);
}

static void places_of(archive *a) {
    const char *base = a->base;
    uint64_t n = a->params->nodes;
    unsigned status = wg_read_offsets(a->params, a->file.at, a->file.bytes, PLACES, a->fault);
    tell(a->told, "offsets", status, a->fault);
    tell_words(a->told, u64(a->places), status ? 0 : n + 1);
    a->has_places = status == 0;
    WANT(WG_USAGE, wg_read_offsets(a->params, a->file.at, a->file.bytes, u64(a->places), n, a->fault));
    WANT(WG_USAGE, wg_read_offsets(a->params, a->file.at, a->file.bytes, u64(a->places), n + 2, a->fault));
    if (!status) offsets_again(a);
}

/* Parameters out of their limits are refused, and places that fall are no harm. */
static void misuse(archive *a, uint64_t page) {
    const char *base = a->base;
    buffer out = words_of(0), told_at = words_of(1);
    wg_params kept = *a->params;
    for (int i = 0; i < 4; i++) {
        uint64_t *field[] = {&a->params->nodes, &a->params->arcs, &a->params->chain, &a->params->interval};
        *field[i] = UINT64_MAX - 1;
        WANT(WG_USAGE, wg_successors(GRAPH, PLACES, page, u64(out), 0, u64(told_at), a->fault));
        *a->params = kept;
    }
    WANT(WG_USAGE, wg_successors(GRAPH, u64(a->places), a->places.bytes / 8 - 1, page, u64(out), 0, u64(told_at),
                                 a->fault));
    uint64_t *places = u64(a->places), seed = page * 2654435761u + 1;
    for (size_t i = 0; i < a->places.bytes / 8; i++) {
        seed = seed * 6364136223846793005u + 1442695040888963407u;
        if (seed >> 62 == 0) places[i] = seed >> (seed >> 56 & 63);
    }
    buffer wide = words_of(1 << 12);
    for (uint64_t x = 0; x < kept.nodes && x < 64; x++) {
        unsigned status = wg_successors(GRAPH, PLACES, x, u64(wide), 1 << 12, u64(told_at), a->fault);
        if (status && status != WG_BAD_ARCHIVE && status != WG_BAD_PLACES && status != WG_NO_ROOM)
            die(base, "places", status);
        if (status && !untouched(wide)) die(base, "places touched", status);
        memset(wide.at, FILL, wide.bytes);
    }
    range_alike(a, 0, kept.nodes < 64 ? kept.nodes + 1 : 64, 1 << 12, 1);
    buffer file = buffer_of(1 << 16);
    int falls = 0;
    for (size_t i = 1; i < a->places.bytes / 8; i++) falls |= places[i] < places[i - 1];
    unsigned wrote = wg_write_offsets(a->params, PLACES, file.at, file.bytes, u64(told_at));
    if (wrote != WG_NO_ROOM && !places[0] && (wrote == WG_BAD_PLACES) != falls) die(base, "fallen places", wrote);
    drop(file), drop(wide), drop(told_at), drop(out);
}

static void look_at(const char *base, const uint64_t *pages, size_t count, FILE *told) {
    buffer text = file_of(base, "properties");
    archive it = {.base = base, .params_at = buffer_of(sizeof(wg_params)), .fault_at = buffer_of(sizeof(wg_fault)),
                  .graph = file_of(base, "graph"), .file = file_of(base, "offsets"), .told = told}, *a = &it;
    a->params = (wg_params *)a->params_at.at, a->fault = (wg_fault *)a->fault_at.at;
    unsigned status;
    CALL(status, wg_read_properties(text.at, text.bytes, a->params),
         if (!untouched(a->params_at)) die(base, "properties touched", 3));
    fprintf(told, "properties %u\n", status);
    if (status && !untouched(a->params_at)) die(base, "properties touched", status);
    if (!status && a->params->nodes < 1 << 20 && a->params->arcs < 1 << 20) {
        a->places = words_of(a->params->nodes + 1);
        places_of(a);
        graph_whole(a);
        ranks(a);
        if (a->has_places) pages_alone(a, pages, count), ranges(a, pages, count), misuse(a, pages[0]);
        drop(a->places);
    }
    drop(text), drop(a->graph), drop(a->file), drop(a->params_at), drop(a->fault_at);
}

/* ---- Threads */
static pthread_mutex_t lock = PTHREAD_MUTEX_INITIALIZER;

static void *work(void *unused) {
    char line[8192], name[8300], *rest;
    (void)unused;
    for (;;) {
        pthread_mutex_lock(&lock);
        char *got = fgets(line, sizeof line, stdin);
        pthread_mutex_unlock(&lock);
        if (!got) return NULL;
        char *base = strtok_r(line, " \n", &rest), *word;
        uint64_t pages[64];
        size_t count = 0;
        while ((word = strtok_r(NULL, " \n", &rest)) && count < 64) pages[count++] = strtoull(word, NULL, 10);
        snprintf(name, sizeof name, "%s.told", base);
        FILE *told = fopen(name, "w");
        if (!told) die(base, "told", 0);
        for (at_front = 0; at_front < 2; at_front++) look_at(base, pages, count, told);
        fclose(told);
    }
}

int main(int count, char **words) {
    pthread_t threads[64];
    if (count != 3) return 2;
    int many = atoi(words[1]);
    starved = atoi(words[2]);
    for (int i = 0; i < many; i++)
        if (pthread_create(&threads[i], NULL, work, NULL)) abort();
    for (int i = 0; i < many; i++) pthread_join(threads[i], NULL);
    return 0;
}
