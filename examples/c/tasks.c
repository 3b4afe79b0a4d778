/* A program of 30 tasks: numbers are made, counted, sorted by their counts, multiplied as a matrix, and looked up in a table of
   words. A task is one call of one of these functions (start.s), and what it hands on to later tasks stands in memory.

   With HOST defined it is a program of the host, which makes the same calls in the same order and prints what they put out. */

enum { BLOCKS = 6, BLOCK = 16, VALUES = BLOCKS * BLOCK, CLASSES = 8, SIDE = 4, WORDS = 8, SLOTS = 16 };

struct item {
    unsigned value;
    unsigned short block;
    unsigned char class;
};

struct slot {
    const char *word;
    int uses;
};

void put_word(unsigned word);

static unsigned seed = 39;
static struct item items[VALUES];
static struct item sorted[VALUES];
static unsigned counts[CLASSES];
static unsigned places[CLASSES];
static int product[SIDE][SIDE];
static struct slot table[SLOTS];
static unsigned check;

static const int factors[SIDE][SIDE] = { { 3, -1, 4, 1 }, { -5, 9, 2, 6 }, { 5, 3, -5, 8 }, { 9, 7, 9, -3 } };

static const char *const words[WORDS] = { "load", "store", "branch", "load", "call", "store", "load", "return" };

/* Makes the values of a block: one sequence, whose state goes from block to block. */
void make_block(int block)
{
    unsigned state = seed;
    for (int n = block * BLOCK; n < (block + 1) * BLOCK; n++) {
        state = state * 1664525u + 1013904223u;
        items[n].value = state >> 16;
        items[n].block = (unsigned short)block;
    }
    seed = state;
}

/* The class of a value: by the remainder of a division, so that no shift does it. */
static unsigned class_of(unsigned value)
{
    return value % 1000u / 125u;
}

/* Counts how many values of a block are of each class. */
void count_block(int block)
{
    for (int n = block * BLOCK; n < (block + 1) * BLOCK; n++) {
        unsigned class = class_of(items[n].value);
        items[n].class = (unsigned char)class;
        counts[class]++;
    }
}

/* Where the values of each class begin when they are sorted. */
void sum_counts(void)
{
    unsigned place = 0;
    for (int class = 0; class < CLASSES; class++) {
        places[class] = place;
        place += counts[class];
        put_word(counts[class]);
    }
}

/* Puts the values of a block where their classes have room. */
void place_block(int block)
{
    for (int n = block * BLOCK; n < (block + 1) * BLOCK; n++)
        sorted[places[items[n].class]++] = items[n];
}

/* A row of a product of matrices: the factors by the first sorted values. */
void multiply_row(int row)
{
    for (int column = 0; column < SIDE; column++) {
        int sum = 0;
        for (int n = 0; n < SIDE; n++)
            sum += factors[row][n] * (int)sorted[n * SIDE + column].value;
        product[row][column] = sum;
    }
    put_word((unsigned)product[row][row]);
}

static unsigned hash(const char *word)
{
    unsigned code = 5381;
    while (*word)
        code = code * 33u + (unsigned char)*word++;
    return code;
}

static int same(const char *one, const char *other)
{
    while (*one && *one == *other) {
        one++;
        other++;
    }
    return *one == *other;
}

/* Looks a fourth of the words up in the table; a word that isn't there takes the next free slot. */
void look_up(int part)
{
    for (int n = part * (WORDS / 4); n < (part + 1) * (WORDS / 4); n++) {
        unsigned at = hash(words[n]) % SLOTS;
        while (table[at].word && !same(table[at].word, words[n]))
            at = (at + 1) % SLOTS;
        table[at].word = words[n];
        table[at].uses++;
    }
}

/* How a number is stirred into the check sum, by its kind. */
static unsigned by_sum(unsigned sum, unsigned word) { return sum * 31u + word; }
static unsigned by_turn(unsigned sum, unsigned word) { return (sum << 5 | sum >> 27) ^ word; }

static unsigned (*const stirs[2])(unsigned, unsigned) = { by_sum, by_turn };

/* Sums up a half of what the tasks before have made. */
void sum_up(int half)
{
    unsigned sum = check;
    for (int n = half * (VALUES / 2); n < (half + 1) * (VALUES / 2); n++)
        sum = stirs[n & 1](sum, sorted[n].value + sorted[n].block);
    for (int row = half * (SIDE / 2); row < (half + 1) * (SIDE / 2); row++)
        for (int column = 0; column < SIDE; column++)
            sum = by_sum(sum, (unsigned)product[row][column]);
    for (int n = half * (SLOTS / 2); n < (half + 1) * (SLOTS / 2); n++)
        sum = by_turn(sum, (unsigned)table[n].uses);
    check = sum;
    put_word(sum);
}

/* The program's result: the check sum's last two digits. */
unsigned result(void)
{
    return check % 100u;
}

#ifdef HOST
#include <stdio.h>

void put_word(unsigned word)
{
    printf("out,%u\n", word);
}

static void for_each(void (*task)(int), int times)
{
    for (int n = 0; n < times; n++)
        task(n);
}

int main(void)
{
    for_each(make_block, BLOCKS);
    for_each(count_block, BLOCKS);
    sum_counts();
    for_each(place_block, BLOCKS);
    for_each(multiply_row, SIDE);
    for_each(look_up, 4);
    for_each(sum_up, 2);
    printf("tasks,30\nexit,%u\n", result());
}
#endif
