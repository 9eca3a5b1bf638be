/* ABA: nodes on a stack without a lock. A hart has read the first node and the one below it; others take both and put the first one back. The stack's
   head is the same again, so that the exchange succeeds, and a node that is in use is on the stack. */
#include "racing.h"

enum { NODES = 3 };

struct node {
    struct node *volatile below;
    atomic_uint users;
};

static struct node nodes[NODES];
static struct node *_Atomic head;
static atomic_uint clashes, lock;

static struct node *pop(void)
{
#ifdef RIGHT
    take(&lock);
    struct node *only = head;
    if (only)
        head = only->below;
    give_back(&lock);
    return only;
#else
    struct node *first = head;
    while (first && !atomic_compare_exchange_strong(&head, &first, first->below))
        ;
    return first;
#endif
}

static void push(struct node *node)
{
#ifdef RIGHT
    take(&lock);
    node->below = head;
    head = node;
    give_back(&lock);
#else
    struct node *first = head;
    do
        node->below = first;
    while (!atomic_compare_exchange_strong(&head, &first, node));
#endif
}

/* A node is in use by one hart at a time. */
static struct node *use(void)
{
    struct node *node = pop();
    if (node && atomic_fetch_add(&node->users, 1) != 0)
        atomic_fetch_add(&clashes, 1);
    return node;
}

static void give(struct node *node)
{
    if (!node)
        return;
    atomic_fetch_sub(&node->users, 1);
    push(node);
}

static void work(unsigned hart)
{
    if (hart == 0) {
        for (unsigned time = 0; time < 8; time++) {
            think(10);
            give(use());
        }
        return;
    }
    for (unsigned time = 0; time < 2; time++) {
        think(25);
        struct node *first = use(), *second = use();
        give(first);
        think(60);
        give(second);
    }
}

int main(void)
{
    for (unsigned at = 0; at < NODES; at++)
        nodes[at].below = at + 1 < NODES ? &nodes[at + 1] : 0;
    head = &nodes[0];
    run_harts(2);
    return told(clashes == 0);
}
