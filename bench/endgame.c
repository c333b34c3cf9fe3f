// The desk's moves and its search through the end of a game in plain C, by the same algorithm: a measure for the Rattle program.
//
// Reads calls from standard input, a line each, and answers each with a line: `board N`, `move C`, `can force`. At the end of the
// input it tells on standard error how long the calls took, a line for each kind; with --count also how many positions the search
// looked at, over all ends and at most for one. With --all the search tries every cell, without the cut.
#define _POSIX_C_SOURCE 199309L
#include <stdbool.h>
#include <stdint.h>
#include <stdio.h>
#include <stdlib.h>
#include <string.h>
#include <time.h>

enum {
    LARGEST = 19,                        // the largest board
    CELLS = LARGEST * LARGEST,           // its cells
    MOST = 16,                           // the most empty cells of an end
    WIDE = MOST + 1,                     // numbers in a row of the triangle
    PLACES = 10165779,                   // the positions of an end with the most empty cells
    TABLE = (PLACES + 3) / 4,            // bytes of a table of two bits a position
    UNKNOWN = 0, WON = 1, LOST = 2,      // what the table says of the side to move
};

// ---- Sets of cells as the bits of numbers.

static int lowest(uint64_t set) { return __builtin_ctzll(set); }
static uint64_t one(int cell) { return (uint64_t)1 << cell; }
static int count_of(uint64_t set) { return __builtin_popcountll(set); }

// ---- The board and its groups. A stone's parent is a later stone of its group, or itself at the root; an empty cell is its own.

typedef struct {
    int n, count, winner;
    uint8_t stones[CELLS];               // 0, 1 or 2
    uint16_t parents[CELLS];
    uint8_t borders[CELLS];              // at a root: 1 if the group touches the side's first border, 2 if the last
    uint8_t table[TABLE];
} Desk;

// The k-th neighbour of a cell, or -1 where the board ends.
static int neighbour(int n, int cell, int k)
{
    static const int down[6] = {0, 0, 1, -1, -1, 1};
    static const int right[6] = {1, -1, 0, 0, 1, -1};
    int row = cell / n + down[k], column = cell % n + right[k];
    return row < 0 || row >= n || column < 0 || column >= n ? -1 : row * n + column;
}

// The borders of a side that a cell touches: 1 for the first, 2 for the last.
static int touched(int n, int side, int cell)
{
    int place = side == 1 ? cell / n : cell % n;
    return (place == 0 ? 1 : 0) + (place == n - 1 ? 2 : 0);
}

static int root(const Desk *desk, int cell)
{
    while (desk->parents[cell] != cell)
        cell = desk->parents[cell];
    return cell;
}

static int turn(const Desk *desk) { return desk->count % 2 == 0 ? 1 : 2; }

// A board without stones, in memory of its own. All of it is written to here, so that no later call waits for its pages: the table
// with ones, since compilers ask for untouched pages of zeros otherwise.
static Desk *desk_open(int n)
{
    Desk *desk = malloc(sizeof *desk);
    if (desk == NULL) {
        fputs("endgame: there is no memory\n", stderr);
        exit(1);
    }
    desk->n = n;
    desk->count = 0;
    desk->winner = 0;
    for (int cell = 0; cell < n * n; cell++) {
        desk->stones[cell] = 0;
        desk->parents[cell] = (uint16_t)cell;
        desk->borders[cell] = 0;
    }
    memset(desk->table, 255, TABLE);
    return desk;
}

// A stone of the side to move comes to an empty cell, and becomes the root of all groups of its side next to it.
static void place_stone(Desk *desk, int cell)
{
    int side = turn(desk);
    desk->borders[cell] = (uint8_t)touched(desk->n, side, cell);
    for (int k = 0; k < 6; k++) {
        int near = neighbour(desk->n, cell, k);
        if (near >= 0 && desk->stones[near] == side) {
            int top = root(desk, near);
            desk->borders[cell] |= desk->borders[top];
            desk->parents[top] = (uint16_t)cell;
        }
    }
    desk->stones[cell] = (uint8_t)side;
    desk->count++;
    if (desk->borders[cell] == 3)
        desk->winner = side;
}

// ---- The place of a position among all that can arise in an end with so many cells.

typedef struct {
    int cells;
    uint32_t triangle[WIDE * WIDE];      // Pascal's, row after row
    size_t starts[WIDE + 1];             // how many positions have fewer stones
} Ranking;

// How many ways there are to lay a stones of one side and b of the other on k cells.
static size_t ways(const uint32_t *triangle, int k, int a, int b)
{
    return (size_t)triangle[k * WIDE + a + b] * triangle[(a + b) * WIDE + a];
}

static void ranking_make(Ranking *ranking, int cells)
{
    ranking->cells = cells;
    for (int i = 0; i < WIDE * WIDE; i++)
        ranking->triangle[i] = i % WIDE == 0 ? 1 : i < WIDE ? 0 : ranking->triangle[i - WIDE - 1] + ranking->triangle[i - WIDE];
    ranking->starts[0] = 0;
    for (int m = 0; m < WIDE; m++)
        ranking->starts[m + 1] = ranking->starts[m] + ways(ranking->triangle, cells, m / 2, (m + 1) / 2);
}

static size_t places(const Ranking *ranking) { return ranking->starts[ranking->cells + 1]; }

// The place of the stones of the side to move and of the other.
static size_t place_of(const Ranking *ranking, uint64_t mine, uint64_t theirs)
{
    const uint32_t *triangle = ranking->triangle;
    int a = count_of(mine), b = count_of(theirs);
    size_t place = ranking->starts[a + b];
    for (int k = ranking->cells - 1; k >= 0; k--) {
        int m = mine % 2, t = theirs % 2;
        if (m == 1)
            place += ways(triangle, k, a, b);
        else if (t == 1)
            place += ways(triangle, k + 1, a, b) - ways(triangle, k, a, b - 1);
        a -= m;
        b -= t;
        mine /= 2;
        theirs /= 2;
    }
    return place;
}

static int table_get(const uint8_t *table, size_t place) { return table[place / 4] >> 2 * (place % 4) & 3; }

static void table_put(uint8_t *table, size_t place, int value)
{
    int shift = 2 * (place % 4);
    table[place / 4] = (uint8_t)((table[place / 4] & ~(3 << shift)) | value << shift);
}

// ---- What a side's stones make of the empty cells, which are numbered from the lowest.

typedef struct {
    uint64_t near[MOST];                 // those next to each, directly or through stones of the side
    uint64_t first, last;                // those at the side's borders, directly or through stones
} Links;

// The empty cells, ascending; how many there are, and their numbers.
static int empty_cells(const Desk *desk, int *cells, int *numbers)
{
    int e = 0;
    for (int cell = 0; cell < desk->n * desk->n; cell++)
        if (desk->stones[cell] == 0) {
            cells[e] = cell;
            numbers[cell] = e++;
        }
    return e;
}

static void links_make(const Desk *desk, int side, const int *cells, const int *numbers, int e, Links *links)
{
    static const Links none;
    uint64_t sets[CELLS] = {0};          // for the root of each group, the empty cells next to the group
    for (int i = 0; i < e; i++)
        for (int k = 0; k < 6; k++) {
            int near = neighbour(desk->n, cells[i], k);
            if (near >= 0 && desk->stones[near] == side)
                sets[root(desk, near)] |= one(i);
        }
    *links = none;
    for (int i = 0; i < e; i++) {
        int borders = touched(desk->n, side, cells[i]);
        for (int k = 0; k < 6; k++) {
            int near = neighbour(desk->n, cells[i], k);
            if (near >= 0 && desk->stones[near] == 0)
                links->near[i] |= one(numbers[near]);
            if (near >= 0 && desk->stones[near] == side) {
                int top = root(desk, near);
                links->near[i] |= sets[top];
                borders |= desk->borders[top];
            }
        }
        if (borders & 1)
            links->first |= one(i);
        if (borders & 2)
            links->last |= one(i);
    }
}

// ---- The search.

typedef struct {
    Ranking ranking;
    uint8_t *table;
    uint64_t looked;                     // how many positions were looked at that the table did not know
} Search;

// The stones laid since the end began, of the side to move and of the other, and the free cells.
typedef struct { uint64_t mine, theirs, free; } Position;

// Whether the side to move wins, the cells that the win rests on, and the winning move, or 0 if it is not known.
typedef struct { bool won; uint64_t carrier, step; } Found;

// The cells that must be tried, and those of the threats that show the others to be lost.
typedef struct { uint64_t must, lost; } Cut;

// The cells that the flood from a set of cells touches: those, and what is near a touched stone.
static uint64_t flood(const uint64_t *near, uint64_t from, uint64_t stones)
{
    uint64_t reached = from, rest = stones;
    while (reached & rest) {
        int k = lowest(reached & rest);
        rest -= one(k);
        reached |= near[k];
    }
    return reached;
}

// The free cells on which a stone joins the side's borders.
static uint64_t completions(const Links *links, uint64_t stones, uint64_t free)
{
    return free & flood(links->near, links->first, stones) & flood(links->near, links->last, stones);
}

// Against no threat every free cell must be tried; against one, its cell; against two, none helps.
static Cut replies(uint64_t threats, uint64_t free)
{
    if (threats == 0)
        return (Cut){free, 0};
    uint64_t threat = one(lowest(threats)), others = threats - threat;
    if (others == 0)
        return (Cut){threat, threat};
    return (Cut){0, threat | one(lowest(others))};
}

// How well a stone on a cell would be linked: the free cells that it reaches through the side's stones laid since, and two more for each
// border of the side that it reaches.
static int weight(const Links *links, int cell, uint64_t stones, uint64_t free)
{
    uint64_t reached = flood(links->near, links->near[cell], stones);
    uint64_t group = (reached & stones) | one(cell);
    return count_of(reached & free) + 2 * ((group & links->first) != 0) + 2 * ((group & links->last) != 0);
}

// Of the cells that must be tried, the first of those that are linked best for both sides together.
static uint64_t best(const Links *mine, const Links *theirs, Position at, uint64_t must)
{
    int best = lowest(must), most = 0;
    for (uint64_t rest = must; rest > 0;) {
        int k = lowest(rest);
        rest -= one(k);
        int linked = weight(mine, k, at.mine, at.free) + weight(theirs, k, at.theirs, at.free);
        if (linked > most) {
            most = linked;
            best = k;
        }
    }
    return one(best);
}

// The position after a move, seen by the other side.
static Position after(Position at, uint64_t step)
{
    return (Position){at.theirs, at.mine + step, at.free - step};
}

// Who wins a position. After a move that loses only the cells of the winner's carrier are tried.
static Found solve(Search *search, const Links *mine, const Links *theirs, Position at)
{
    uint64_t own = completions(mine, at.mine, at.free);
    if (own) {
        search->looked++;
        uint64_t step = one(lowest(own));
        return (Found){true, step, step};
    }
    Cut cut = replies(completions(theirs, at.theirs, at.free), at.free);
    if (cut.must == 0) {
        search->looked++;
        return (Found){false, cut.lost, 0};
    }
    size_t place = place_of(&search->ranking, at.mine, at.theirs);
    int known = table_get(search->table, place);
    if (known != UNKNOWN)
        return (Found){known == WON, at.free, 0};
    search->looked++;
    uint64_t must = cut.must;
    Found found = {false, cut.lost, 0};
    while (must) {
        uint64_t step = best(mine, theirs, at, must);
        Found next = solve(search, theirs, mine, after(at, step));
        if (next.won) {
            must &= next.carrier;
            found.carrier |= next.carrier;
        } else {
            must = 0;
            found = (Found){true, next.carrier | step, step};
        }
    }
    table_put(search->table, place, found.won ? WON : LOST);
    return found;
}

// The same without the cut: a cell that connects at once is taken, else every free cell is tried, the lowest first, until one wins.
static Found solve_all(Search *search, const Links *mine, const Links *theirs, Position at)
{
    size_t place = place_of(&search->ranking, at.mine, at.theirs);
    int known = table_get(search->table, place);
    if (known != UNKNOWN)
        return (Found){known == WON, at.free, 0};
    search->looked++;
    uint64_t own = completions(mine, at.mine, at.free);
    Found found = {own != 0, at.free, own};
    for (uint64_t rest = at.free; rest > 0 && !found.won;) {
        uint64_t step = one(lowest(rest));
        rest -= step;
        if (!solve_all(search, theirs, mine, after(at, step)).won)
            found = (Found){true, at.free, step};
    }
    table_put(search->table, place, found.won ? WON : LOST);
    return found;
}

// Whether the side to move can force that it connects: a cell for a move that does it, or one of the answers below.
enum { YES = -1, NO = -2, TOO_MANY = -3 };

static int can_force(Desk *desk, bool all, uint64_t *looked)
{
    if (desk->winner != 0)
        return desk->winner == turn(desk) ? YES : NO;
    int e = desk->n * desk->n - desk->count;
    if (e > MOST)
        return TOO_MANY;
    int cells[MOST], numbers[CELLS];
    empty_cells(desk, cells, numbers);
    Links mine, theirs;
    links_make(desk, turn(desk), cells, numbers, e, &mine);
    links_make(desk, 3 - turn(desk), cells, numbers, e, &theirs);
    Search search = {.table = desk->table};
    ranking_make(&search.ranking, e);
    memset(desk->table, 0, (places(&search.ranking) + 3) / 4);
    Position at = {0, 0, one(e) - 1};
    Found found = all ? solve_all(&search, &mine, &theirs, at) : solve(&search, &mine, &theirs, at);
    *looked = search.looked;
    return found.won ? cells[lowest(found.step)] : NO;
}

// ---- Calls as lines, and how long they took.

typedef struct { const char *kind; uint64_t calls, total, longest; } Times;

static uint64_t now(void)
{
    struct timespec time;
    clock_gettime(CLOCK_MONOTONIC, &time);
    return (uint64_t)time.tv_sec * 1000000000u + (uint64_t)time.tv_nsec;
}

static void add_time(Times *times, uint64_t start)
{
    uint64_t took = now() - start;
    times->calls++;
    times->total += took;
    if (took > times->longest)
        times->longest = took;
}

static void print_times(const Times *times)
{
    if (times->calls > 0)
        fprintf(stderr, "%s: %llu calls, %llu ns in all, longest %llu ns\n", times->kind, (unsigned long long)times->calls,
                (unsigned long long)times->total, (unsigned long long)times->longest);
}

static Desk *serve_board(Desk *desk, int n, Times *times)
{
    if (n < 1 || n > LARGEST) {
        puts("refused 3 at 0");
        return desk;
    }
    uint64_t start = now();
    free(desk);
    desk = desk_open(n);
    add_time(times, start);
    printf("board %d\n", n);
    return desk;
}

static void serve_move(Desk *desk, int cell, Times *times)
{
    if (cell < 0 || cell >= desk->n * desk->n)
        puts("refused 2 at 0");
    else if (desk->winner != 0)
        puts("refused 4 at 0");
    else if (desk->stones[cell] != 0)
        puts("refused 5 at 0");
    else {
        uint64_t start = now();
        place_stone(desk, cell);
        add_time(times, start);
        printf("%d\n", desk->count - 1);
    }
}

// Returns how many positions were looked at.
static uint64_t serve_can_force(Desk *desk, bool all, Times *times)
{
    uint64_t looked = 0, start = now();
    int answer = can_force(desk, all, &looked);
    add_time(times, start);
    if (answer >= 0)
        printf("yes %d\n", answer);
    else
        puts(answer == YES ? "yes" : answer == NO ? "no" : "too many");
    return looked;
}

int main(int arguments, char **argument)
{
    bool all = false, count = false;
    for (int i = 1; i < arguments; i++) {
        if (strcmp(argument[i], "--all") == 0)
            all = true;
        else if (strcmp(argument[i], "--count") == 0)
            count = true;
        else {
            fprintf(stderr, "endgame: there is --all and --count, not %s\n", argument[i]);
            return 1;
        }
    }
    Times board = {.kind = "board"}, move = {.kind = "move"}, force = {.kind = "can force"};
    uint64_t looked, total = 0, most = 0;
    Desk *desk = NULL;
    char line[64];
    int number;
    while (fgets(line, sizeof line, stdin) != NULL) {
        if (sscanf(line, "board %d", &number) == 1)
            desk = serve_board(desk, number, &board);
        else if (desk != NULL && sscanf(line, "move %d", &number) == 1)
            serve_move(desk, number, &move);
        else if (desk != NULL && strncmp(line, "can force", 9) == 0) {
            looked = serve_can_force(desk, all, &force);
            total += looked;
            most = looked > most ? looked : most;
        } else
            puts("refused 1 at 0");
    }
    print_times(&board);
    print_times(&move);
    print_times(&force);
    if (count)
        fprintf(stderr, "looked at %llu positions, at most %llu for one end\n", (unsigned long long)total, (unsigned long long)most);
    free(desk);
    return 0;
}
