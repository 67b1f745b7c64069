/* The translator of examples/lists-in-groups.ag: one pass, from right to left, which computes one value for each node. */
#include "translator.h"

enum symbol { GROUPS, LISTS, LETTERS };

enum production { MORE_GROUPS, NO_GROUPS, MORE_LISTS, NO_LISTS, MORE_LETTERS, NO_LETTERS, PRODUCTIONS };

/* The symbol of each production, and its children from left to right. */
static const struct {
    enum symbol left;
    unsigned count;
    enum symbol children[2];
} shapes[PRODUCTIONS] = {
    [MORE_GROUPS] = {GROUPS, 2, {LISTS, GROUPS}},
    [NO_GROUPS] = {GROUPS, 0, {0}},
    [MORE_LISTS] = {LISTS, 2, {LETTERS, LISTS}},
    [NO_LISTS] = {LISTS, 0, {0}},
    [MORE_LETTERS] = {LETTERS, 1, {LETTERS}},
    [NO_LETTERS] = {LETTERS, 0, {0}},
};

/* Parsing */

static void parse_letters(struct scanner *scanner, unsigned level) {
    count_node(&scanner->nodes, level, OF_SENTENCE);
    if (scanner->token == 'x') {
        next_token(scanner);
        parse_letters(scanner, level + 1);
        put_bare(scanner->to, MORE_LETTERS);
    } else if (scanner->token == ',') {
        put_bare(scanner->to, NO_LETTERS);
    } else {
        unexpected(scanner);
    }
}

static void parse_lists(struct scanner *scanner, unsigned level) {
    count_node(&scanner->nodes, level, OF_SENTENCE);
    if (scanner->token == 'x' || scanner->token == ',') {
        parse_letters(scanner, level + 1);
        expect(scanner, ',');
        parse_lists(scanner, level + 1);
        put_bare(scanner->to, MORE_LISTS);
    } else if (scanner->token == ';') {
        put_bare(scanner->to, NO_LISTS);
    } else {
        unexpected(scanner);
    }
}

static void parse_groups(struct scanner *scanner, unsigned level) {
    count_node(&scanner->nodes, level, OF_SENTENCE);
    if (scanner->token == NO_TOKEN) {
        put_bare(scanner->to, NO_GROUPS);
    } else {
        parse_lists(scanner, level + 1);
        expect(scanner, ';');
        parse_groups(scanner, level + 1);
        put_bare(scanner->to, MORE_GROUPS);
    }
}

static void parse(struct scanner *scanner) {
    parse_groups(scanner, 1);
}

/* The pass */

/* An open node: its production, the number of children that are not visited yet, its value, and the values of the visited
   children: numbers by their places, and the text of the remaining groups. */
struct node {
    enum production production;
    unsigned unvisited;
    int64_t c;
    int64_t cs[2];
    struct text out;
    struct text rest;
};

/* Reads the next record, and opens its node, which must have this symbol. */
static void open_node(struct node *node, enum symbol symbol, struct reader *from) {
    unsigned production = take_record(from);
    end_values(from);
    if (production >= PRODUCTIONS || shapes[production].left != symbol) {
        damaged(from);
    }
    node->production = (enum production)production;
    node->unvisited = shapes[production].count;
}

/* Evaluates the rule of a node whose children are closed, and writes its record. */
static void close_node(struct node *node, struct file *to) {
    begin_record(to, node->production);
    switch (node->production) {
    case MORE_GROUPS:
        node->out.length = 0;
        put_text(to, &node->out);
        put_number(to, node->cs[0]);
        put_text(to, &node->rest);
        break;
    case NO_GROUPS:
        node->out.length = 0;
        put_text(to, &node->out);
        break;
    default:
        node->c = 0;
        put_number(to, node->c);
        for (unsigned child = 0; child < shapes[node->production].count; child++) {
            put_number(to, node->cs[child]);
        }
    }
    end_record(to);
}

/* Copies the value of a node to its parent. */
static void copy_to_parent(const struct node *node, struct node *parent) {
    if (shapes[node->production].left == GROUPS) {
        parent->rest = node->out;
    } else {
        parent->cs[parent->unvisited] = node->c;
    }
}

static void run_pass(unsigned pass, struct reader *from, struct file *to) {
    static struct node nodes[MAX_LEVELS];
    unsigned open = 0, count = 0;
    (void)pass;
    count_node(&count, 1, OF_FILE);
    open_node(&nodes[open++], GROUPS, from);
    while (open > 0) {
        struct node *node = &nodes[open - 1];
        if (node->unvisited > 0) {
            enum symbol child = shapes[node->production].children[--node->unvisited];
            count_node(&count, open + 1, OF_FILE);
            open_node(&nodes[open++], child, from);
        } else {
            close_node(node, to);
            open--;
            if (open > 0) {
                copy_to_parent(node, node - 1);
            }
        }
    }
}

static void take_root(struct reader *from, struct text *out) {
    if (take_record(from) == NO_GROUPS) {
        take_text(from, out);
    } else {
        struct text rest;
        take_text(from, out);
        take_number(from);
        take_text(from, &rest);
    }
    end_values(from);
}

const struct translator lists = {"lists", {'x', ',', ';'}, 1, parse, run_pass, take_root};
