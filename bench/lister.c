/* A plain lister of the same listing, with bit sets: the yardstick of bench/run. It trusts its input and checks nothing.
 *
 *     lister pack|list < net
 *
 * Bars and links go by rank. At the leaving link of rank k the bars cut off from the infeed are flooded from bar k + 1;
 * the links between them and a bar of rank k or less enter. */
#include <stdint.h>
#include <stdio.h>
#include <string.h>

static int bars, links, end_a[64], end_b[64];
static int rank_of_bar[64], link_at[64], found, starts;
static uint64_t near[64], touching[64], low[64];
static int rank_of_link[64], ranked, low_rank[64], high_rank[64];
static uint64_t closed;
static unsigned long long told = 1;
static int listing;

static char out[1 << 16];
static size_t used;
static void flush(void) { fwrite(out, 1, used, stdout); used = 0; }
static void room(size_t n) { if (used + n > sizeof out) flush(); }
static void byte(int b) { out[used++] = (char)b; }
static void two(int n) { byte(n >> 8); byte(n & 255); }

static void number(unsigned long long n) {
    char digits[20];
    int count = 0;
    do digits[count++] = (char)('0' + n % 10); while (n /= 10);
    while (count) byte(digits[--count]);
}

static void line(void) {
    room(256);
    number(told);
    for (int l = 1; l <= links; l++)
        if (closed >> l & 1) { byte(' '); number((unsigned)l); }
    byte('\n');
}

static void exchange(char kind, int link_out, int link_in) {
    closed ^= 1ull << link_out | 1ull << link_in;
    if (kind == 'F') told++;
    if (listing) { if (kind == 'F') line(); return; }
    room(5);
    byte(kind); two(link_out); two(link_in);
}

static void visit(int b) {
    for (int l = 1; l <= links; l++) {
        if (!end_a[l]) continue;
        int c = end_a[l] == b ? end_b[l] : end_b[l] == b ? end_a[l] : 0;
        if (!c || rank_of_bar[c]) continue;
        rank_of_bar[c] = ++found;
        rank_of_link[l] = ++starts;
        visit(c);
    }
}

static void join(int r) { near[low_rank[r]] |= 1ull << high_rank[r]; near[high_rank[r]] |= 1ull << low_rank[r]; }
static void part(int r) { near[low_rank[r]] &= ~(1ull << high_rank[r]); near[high_rank[r]] &= ~(1ull << low_rank[r]); }

static void events(int k) {
    for (; k > 0; k--) {
        part(k);
        uint64_t cut = 1ull << (k + 1), todo = cut, reach = 0;
        while (todo) {
            int b = __builtin_ctzll(todo);
            todo &= todo - 1;
            reach |= touching[b];
            todo |= near[b] & ~cut;
            cut |= near[b];
        }
        uint64_t entering = reach & low[k] & ~(1ull << k);
        while (entering) {
            int g = __builtin_ctzll(entering);
            entering &= entering - 1;
            join(g);
            exchange('F', link_at[k], link_at[g]);
            events(k - 1);
            exchange('B', link_at[g], link_at[k]);
            part(g);
        }
        join(k);
    }
}

int main(int argc, char **argv) {
    char word[16];
    listing = argc > 1 && !strcmp(argv[1], "list");
    if (scanf("bars %d", &bars) != 1) return 1;
    while (scanf("%15s", word) == 1)
        if (strcmp(word, "out") == 0) links++;
        else if (scanf("%d %d", &end_a[links + 1], &end_b[links + 1]) == 2) links++;
    rank_of_bar[1] = found = 1;
    visit(1);
    ranked = starts;
    for (int k = 1; k <= bars; k++)
        for (int l = 1; l <= links; l++) {
            if (!end_a[l] || rank_of_link[l]) continue;
            int a = rank_of_bar[end_a[l]], b = rank_of_bar[end_b[l]];
            if ((a < b ? a : b) == k) rank_of_link[l] = ++ranked;
        }
    for (int l = 1; l <= links; l++) {
        int r = rank_of_link[l];
        if (!r) continue;
        int a = rank_of_bar[end_a[l]], b = rank_of_bar[end_b[l]];
        link_at[r] = l;
        low_rank[r] = a < b ? a : b;
        high_rank[r] = a < b ? b : a;
        touching[a] |= 1ull << r;
        touching[b] |= 1ull << r;
        for (int k = low_rank[r]; k <= bars; k++) low[k] |= 1ull << r;
    }
    for (int r = 1; r <= starts; r++) { join(r); closed |= 1ull << link_at[r]; }
    if (listing) line();
    else {
        byte('N'); two(bars); two(links);
        for (int r = 1; r <= starts; r++) { byte('S'); two(link_at[r]); }
    }
    events(starts);
    room(64);
    if (listing) used += (size_t)sprintf(out + used, "total %llu\n", told);
    else { byte('Z'); for (int i = 56; i >= 0; i -= 8) byte((int)(told >> i & 255)); }
    flush();
    return 0;
}
