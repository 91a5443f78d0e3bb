/* Prints the mean outdegree of an archive, and its farthest link: links BASE
 *
 *     cc links.c $(pkg-config --cflags --libs webgraph) -o links */
#include <stdio.h>
#include <stdlib.h>
#include "webgraph.h"

static unsigned char *file_of(const char *base, const char *suffix, size_t *length) {
    char name[4096];
    snprintf(name, sizeof name, "%s.%s", base, suffix);
    FILE *file = fopen(name, "rb");
    if (!file || fseek(file, 0, SEEK_END)) exit((perror(name), 1));
    *length = (size_t)ftell(file);
    rewind(file);
    unsigned char *bytes = malloc(*length + 1); /* never null, also for an empty file */
    if (!bytes || fread(bytes, 1, *length, file) != *length) exit((perror(name), 1));
    fclose(file);
    return bytes;
}

int main(int count, char **words) {
    wg_params params;
    wg_fault fault;
    size_t length, bytes;
    if (count != 2) return fputs("links: links BASE\n", stderr), 2;
    unsigned char *text = file_of(words[1], "properties", &length), *graph = file_of(words[1], "graph", &bytes);
    unsigned status = wg_read_properties(text, length, &params);
    if (status) return fprintf(stderr, "links: status %u\n", status), (int)status;
    uint64_t *ends = malloc(8 * params.nodes + 8), *all = malloc(8 * params.arcs + 8);
    uint64_t far = 0, from = 0, to = 0, at = 0;
    if (!ends || !all) return fputs("links: out of memory\n", stderr), 3;
    status = wg_read_lists(&params, graph, bytes, ends, params.nodes, all, params.arcs, &fault);
    if (status == WG_BAD_ARCHIVE) fprintf(stderr, "links: kind of fault %u, page %llu\n", fault.which,
                                          (unsigned long long)fault.page);
    if (status) return fprintf(stderr, "links: status %u\n", status), (int)status;
    for (uint64_t page = 0; page < params.nodes; page++)
        for (; at < ends[page]; at++) {
            uint64_t span = all[at] > page ? all[at] - page : page - all[at];
            if (span > far) far = span, from = page, to = all[at];
        }
    printf("%.3f successors a page; the farthest link is from %llu to %llu\n",
           params.nodes ? (double)params.arcs / (double)params.nodes : 0.0, (unsigned long long)from,
           (unsigned long long)to);
    return 0;
}
