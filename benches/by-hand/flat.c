/* The translator of flat.ag in this folder, groups of five. Pass 1 goes from right to left and counts the leaves below each node.
   Pass 2 goes from left to right and counts the leaves before each node. */
#include "translator.h"

#include <stdio.h>

enum { CHILDREN = 5 };

enum production { ROOT_LEAF, ROOT_GROUP, LEAF, GROUP };

/* Parsing */

static void parse_node(struct scanner *scanner, unsigned level, enum production leaf, enum production group) {
    count_node(&scanner->nodes, level, OF_SENTENCE);
    if (scanner->token == '.') {
        next_token(scanner);
        put_bare(scanner->to, leaf);
        return;
    }
    expect(scanner, '(');
    for (unsigned child = 0; child < CHILDREN; child++) {
        parse_node(scanner, level + 1, LEAF, GROUP);
    }
    expect(scanner, ')');
    put_bare(scanner->to, group);
}

static void parse(struct scanner *scanner) {
    parse_node(scanner, 1, ROOT_LEAF, ROOT_GROUP);
    if (scanner->token != NO_TOKEN) {
        unexpected(scanner);
    }
}

/* The passes */

/* An open node: its production, the number of visited children, its values, and the sizes of its children if it is a group.
   Pass 1 computes the sizes, and pass 2 reads their copies. The root has no `at`, and has a text instead of a size. */
struct node {
    enum production production;
    unsigned visited;
    int64_t size;
    int64_t at;
    int64_t sizes[CHILDREN];
    struct text out;
};

static int64_t sum(int64_t a, int64_t b) {
    if ((b > 0 && a > INT64_MAX - b) || (b < 0 && a < INT64_MIN - b)) {
        refuse(6, "a sum is too large");
    }
    return a + b;
}

/* Returns the sum of a number and of the sizes of the first `count` children. */
static int64_t sum_of(int64_t first, const int64_t *sizes, unsigned count) {
    for (unsigned child = 0; child < count; child++) {
        first = sum(first, sizes[child]);
    }
    return first;
}

static unsigned children_of(enum production production) {
    return production == ROOT_GROUP || production == GROUP ? CHILDREN : 0;
}

/* Reads the next record of the file of the previous pass, and opens its node, which has `open` nodes above it. */
static void open_node(struct node *node, unsigned open, unsigned pass, struct reader *from) {
    unsigned production = take_record(from);
    if (open == 0 ? production > ROOT_GROUP : production < LEAF || production > GROUP) {
        damaged(from);
    }
    node->production = (enum production)production;
    node->visited = 0;
    if (pass == 2) {
        if (open == 0) {
            take_text(from, &node->out);
        } else {
            node->size = take_number(from);
        }
        for (unsigned child = 0; child < children_of(node->production); child++) {
            node->sizes[child] = take_number(from);
        }
    }
    end_values(from);
}

/* Writes the record of a node, whose values up to this pass are known. */
static void put_node(const struct node *node, unsigned pass, struct file *to) {
    begin_record(to, node->production);
    if (node->production <= ROOT_GROUP) {
        put_text(to, &node->out);
    } else {
        put_number(to, node->size);
        if (pass == 2) {
            put_number(to, node->at);
        }
    }
    for (unsigned child = 0; child < children_of(node->production); child++) {
        put_number(to, node->sizes[child]);
    }
    end_record(to);
}

static void run_first_pass(struct reader *from, struct file *to) {
    static struct node nodes[MAX_LEVELS];
    unsigned open = 0, count = 0;
    count_node(&count, 1, OF_FILE);
    open_node(&nodes[open], open, 1, from);
    open++;
    for (;;) {
        struct node *node = &nodes[open - 1];
        if (node->visited < children_of(node->production)) {
            count_node(&count, open + 1, OF_FILE);
            open_node(&nodes[open], open, 1, from);
            open++;
            continue;
        }
        node->size = node->visited == 0 ? 1 : sum_of(node->sizes[0], node->sizes + 1, CHILDREN - 1);
        if (open == 1) {
            node->out.length = (size_t)sprintf(node->out.bytes, "%lld", (long long)node->size);
            put_node(node, 1, to);
            return;
        }
        put_node(node, 1, to);
        open--;
        struct node *parent = &nodes[open - 1];
        parent->visited++;
        parent->sizes[CHILDREN - parent->visited] = node->size;
    }
}

/* The rule for the place of the child that was read last, by the sizes of those before it. */
static int64_t place_of_child(const struct node *node) {
    if (node->production == GROUP) {
        return sum_of(node->at, node->sizes, node->visited);
    }
    return node->visited == 0 ? 0 : sum_of(node->sizes[0], node->sizes + 1, node->visited - 1);
}

static void run_second_pass(struct reader *from, struct file *to) {
    static struct node nodes[MAX_LEVELS];
    unsigned open = 0, count = 0;
    count_node(&count, 1, OF_FILE);
    open_node(&nodes[open], open, 2, from);
    open++;
    while (open > 0) {
        struct node *node = &nodes[open - 1];
        if (node->visited < children_of(node->production)) {
            struct node *child = &nodes[open];
            count_node(&count, open + 1, OF_FILE);
            open_node(child, open, 2, from);
            open++;
            if (child->size != node->sizes[node->visited]) {
                damaged(from);
            }
            child->at = place_of_child(node);
            node->visited++;
        } else {
            put_node(node, 2, to);
            open--;
        }
    }
}

static void run_pass(unsigned pass, struct reader *from, struct file *to) {
    if (pass == 1) {
        run_first_pass(from, to);
    } else {
        run_second_pass(from, to);
    }
}

static void take_root(struct reader *from, struct text *out) {
    struct node root;
    open_node(&root, 0, 2, from);
    *out = root.out;
}

const struct translator flat = {"flat", {'(', '.', ')'}, 2, parse, run_pass, take_root};
