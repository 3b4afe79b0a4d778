/* The program of tasks.c with less handed on: each task has counters of its own, and a later task adds them up. Where a task would
   need what the task before it has just made, others stand between the two. A task is one call of one of these functions
   (apart_start.s).

   With HOST defined it is a program of the host, which makes the same calls in the same order and prints what they put out. */

enum { BLOCKS = 6, BLOCK = 16, VALUES = BLOCKS * BLOCK, CLASSES = 8, SIDE = 4, WORDS = 8, PARTS = 4, SLOTS = 16, SUMS = 4 };

struct item {
    unsigned value;
    unsigned short block;
    unsigned char class;
};

struct slot {
    const char *word;
    int uses;
};

void put_word(unsigned word);

static struct item items[VALUES];
static struct item sorted[VALUES];
static unsigned counts[BLOCKS][CLASSES];
static int product[SIDE][SIDE];
static struct slot table[PARTS][SLOTS];
static unsigned sums[SUMS];

/* Where the one sequence of tasks.c has come to as each block begins. */
static const unsigned states[BLOCKS] = { 39u, 2974112311u, 308901959u, 1580030551u, 2207383655u, 903375479u };

static const int factors[SIDE][SIDE] = { { 3, -1, 4, 1 }, { -5, 9, 2, 6 }, { 5, 3, -5, 8 }, { 9, 7, 9, -3 } };

static const char *const words[WORDS] = { "load", "store", "branch", "load", "call", "store", "load", "return" };

/* Makes the values of a block, from a state of its own. */
void make_block(int block)
{
    unsigned state = states[block];
    for (int n = block * BLOCK; n < (block + 1) * BLOCK; n++) {
        state = state * 1664525u + 1013904223u;
        items[n].value = state >> 16;
        items[n].block = (unsigned short)block;
    }
}

static unsigned class_of(unsigned value)
{
    return value % 1000u / 125u;
}

/* Counts how many values of a block are of each class, in counters of the block's own. */
void count_block(int block)
{
    for (int n = block * BLOCK; n < (block + 1) * BLOCK; n++) {
        unsigned class = class_of(items[n].value);
        items[n].class = (unsigned char)class;
        counts[block][class]++;
    }
}

/* Puts out how many values are of each class. */
void put_counts(void)
{
    for (int class = 0; class < CLASSES; class++) {
        unsigned sum = 0;
        for (int block = 0; block < BLOCKS; block++)
            sum += counts[block][class];
        put_word(sum);
    }
}

/* Puts the values of a block where their classes have room, after those of the blocks before it: it adds up the counters itself. */
void place_block(int block)
{
    unsigned places[CLASSES];
    unsigned place = 0;
    for (int class = 0; class < CLASSES; class++) {
        places[class] = place;
        for (int other = 0; other < BLOCKS; other++) {
            if (other < block)
                places[class] += counts[other][class];
            place += counts[other][class];
        }
    }
    for (int n = block * BLOCK; n < (block + 1) * BLOCK; n++)
        sorted[places[items[n].class]++] = items[n];
}

/* A row of a product of matrices: the factors by the first sorted values. */
void multiply_row(int row)
{
    for (int column = 0; column < SIDE; column++) {
        int sum = 0;
        for (int n = 0; n < SIDE; n++)
            sum += factors[row][n] * (int)sorted[n * SIDE + column].value;
        product[row][column] = sum;
    }
    put_word((unsigned)product[row][row]);
}

static unsigned hash(const char *word)
{
    unsigned code = 5381;
    while (*word)
        code = code * 33u + (unsigned char)*word++;
    return code;
}

static int same(const char *one, const char *other)
{
    while (*one && *one == *other) {
        one++;
        other++;
    }
    return *one == *other;
}

/* Looks a fourth of the words up in a table of its own; a word that isn't there takes the next free slot. */
void look_up(int part)
{
    for (int n = part * (WORDS / PARTS); n < (part + 1) * (WORDS / PARTS); n++) {
        unsigned at = hash(words[n]) % SLOTS;
        while (table[part][at].word && !same(table[part][at].word, words[n]))
            at = (at + 1) % SLOTS;
        table[part][at].word = words[n];
        table[part][at].uses++;
    }
}

static unsigned by_sum(unsigned sum, unsigned word) { return sum * 31u + word; }
static unsigned by_turn(unsigned sum, unsigned word) { return (sum << 5 | sum >> 27) ^ word; }

static unsigned (*const stirs[2])(unsigned, unsigned) = { by_sum, by_turn };

/* Sums up a half of the sorted values, into a sum of its own. */
void sum_values(int half)
{
    unsigned sum = 0;
    for (int n = half * (VALUES / 2); n < (half + 1) * (VALUES / 2); n++)
        sum = stirs[n & 1](sum, sorted[n].value + sorted[n].block);
    sums[half] = sum;
}

void sum_product(void)
{
    unsigned sum = 0;
    for (int row = 0; row < SIDE; row++)
        for (int column = 0; column < SIDE; column++)
            sum = by_sum(sum, (unsigned)product[row][column]);
    sums[2] = sum;
}

void sum_table(void)
{
    unsigned sum = 0;
    for (int n = 0; n < SLOTS; n++) {
        unsigned uses = 0;
        for (int part = 0; part < PARTS; part++)
            uses += (unsigned)table[part][n].uses;
        sum = by_turn(sum, uses);
    }
    sums[3] = sum;
}

void put_sum(int half)
{
    put_word(sums[half]);
}

/* The program's result: the last two digits of the sums together. */
unsigned result(void)
{
    return (sums[0] + sums[1] + sums[2] + sums[3]) % 100u;
}

#ifdef HOST
#include <stdio.h>

void put_word(unsigned word)
{
    printf("out,%u\n", word);
}

static void for_each(void (*task)(int), int from, int to)
{
    for (int n = from; n < to; n++)
        task(n);
}

int main(void)
{
    for_each(make_block, 0, BLOCKS);
    for_each(count_block, 0, BLOCKS);
    for_each(look_up, 0, 2);
    for_each(place_block, 0, BLOCKS);
    for_each(look_up, 2, 4);
    put_counts();
    for_each(multiply_row, 0, 2);
    sum_table();
    for_each(multiply_row, 2, 4);
    for_each(sum_values, 0, 2);
    sum_product();
    for_each(put_sum, 0, 2);
    printf("tasks,34\nexit,%u\n", result());
}
#endif
