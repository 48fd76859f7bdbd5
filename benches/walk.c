/* The lookups of `measures walk` in C, over the same words and with the same addresses, as a
 * measure to compare with.
 *
 *   walk WORDS ROUNDS
 *
 * WORDS is what `measures words ITEMS` writes: the words, and then 4096 addresses. The words are
 * loaded in the order that readers load them in, as sequentially consistent atomics. The line is
 * that of `measures walk ITEMS ROUNDS`, with the nodes that the same lookups visit in a red-black
 * tree of pointers, after lib/rbtree.c of Linux, into which the items were inserted in the same
 * order. */
#include <stdint.h>
#include <stdio.h>
#include <stdlib.h>

typedef uint64_t u64;

enum { ADDRESSES = 4096 };

static u64 *words, items;

static u64 load(u64 word) { return __atomic_load_n(&words[word], __ATOMIC_SEQ_CST); }

/* Whether the key is in an item, whose tag it returns; counts the loads. */
static inline int find(u64 key, u64 *tag, u64 *loads) {
    for (;;) {
        u64 sequence = load(0), copy = sequence & 1, link = load(1 + copy), visits = 0;
        int found = 0, lost = 0;
        while (link) {
            if (link > items || visits++ == items) {
                lost = 1;
                break;
            }
            u64 node = 3 + 7 * (link - 1), a = load(node), b = load(node + 1);
            *tag = load(node + 2);
            if (key < a) link = load(node + 3 + 2 * copy);
            else if (key >= b) link = load(node + 4 + 2 * copy);
            else {
                found = 1;
                break;
            }
        }
        if (load(0) == sequence && !lost) {
            *loads += 4 * visits + 3 - found;
            return found;
        }
    }
}

/* A round of lookups. */
__attribute__((noinline)) static void look_up_all(const u64 *addresses, u64 *found, u64 *loads, u64 *tags) {
    u64 hits = 0, count = 0, sum = 0;
    for (int i = 0; i < ADDRESSES; i++) {
        u64 tag;
        if (find(addresses[i], &tag, &count)) {
            hits++;
            sum += tag;
        }
    }
    *found += hits;
    *loads += count;
    *tags += sum;
}

struct node {
    u64 a, b;
    int red;
    struct node *parent, *child[2];
};

static struct node *root;

static void turn(struct node *top, int side) {
    struct node *up = top->child[!side];
    top->child[!side] = up->child[side];
    if (up->child[side]) up->child[side]->parent = top;
    up->parent = top->parent;
    if (!top->parent) root = up;
    else top->parent->child[top == top->parent->child[1]] = up;
    up->child[side] = top;
    top->parent = up;
}

/* Mends the way up from a new red node. */
static void mend(struct node *node) {
    struct node *parent;
    while ((parent = node->parent) && parent->red) {
        struct node *top = parent->parent;
        int side = parent == top->child[1];
        struct node *uncle = top->child[!side];
        if (uncle && uncle->red) {
            parent->red = uncle->red = 0;
            top->red = 1;
            node = top;
            continue;
        }
        if (node == parent->child[!side]) {
            turn(parent, side);
            parent = node;
        }
        parent->red = 0;
        top->red = 1;
        turn(top, !side);
        break;
    }
    root->red = 0;
}

static void insert(struct node *node) {
    struct node *parent = NULL, **link = &root;
    while (*link) {
        parent = *link;
        link = &parent->child[node->a >= parent->a];
    }
    node->parent = parent;
    node->red = 1;
    *link = node;
    mend(node);
}

/* How many nodes a lookup visits in that tree. */
static u64 visited(u64 key) {
    u64 visits = 0;
    for (struct node *node = root; node; visits++) {
        if (key < node->a) node = node->child[0];
        else if (key >= node->b) node = node->child[1];
        else return visits + 1;
    }
    return visits;
}

int main(int count, char **arguments) {
    FILE *file = count == 3 ? fopen(arguments[1], "r") : NULL;
    if (!file) return 2;
    u64 length = 0, room = 1 << 20, word;
    words = malloc(room * sizeof *words);
    while (length < room && fscanf(file, "%lu", &word) == 1) words[length++] = word;
    if (length < 3 + ADDRESSES) return 2;
    u64 *addresses = words + length - ADDRESSES, visits = 0;
    items = (length - ADDRESSES - 3) / 7;
    /* The first item went into the last node, the next into the one before it. */
    struct node *nodes = calloc(items, sizeof *nodes);
    for (u64 i = items; i-- > 0;) {
        nodes[i].a = words[3 + 7 * i];
        nodes[i].b = words[4 + 7 * i];
        insert(&nodes[i]);
    }
    for (int i = 0; i < ADDRESSES; i++) visits += visited(addresses[i]);
    u64 rounds = strtoull(arguments[2], NULL, 10), found = 0, loads = 0, tags = 0;
    for (u64 i = 0; i < rounds; i++) look_up_all(addresses, &found, &loads, &tags);
    printf("items %lu lookups %lu found %lu loads %lu tags %lu tree %.3f\n", items, rounds * ADDRESSES, found, loads, tags,
           (double)visits / ADDRESSES);
}
