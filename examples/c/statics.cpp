// C++ with no library: objects that are made before main and unmade after it, a variable of a thread, and templates.
#include "paged.h"

static unsigned order;

struct Counted {
    unsigned made;
    explicit Counted(unsigned weight) : made(order = order * 10 + weight) {}
    ~Counted() { print("unmade "); print_number(made); print("\n"); }
};

static Counted first(1), second(2);
static thread_local unsigned of_thread = 5;

template <typename T> static T sum(const T *from, unsigned count)
{
    T all{};
    for (unsigned at = 0; at < count; at++)
        all += from[at];
    return all;
}

int main()
{
    unsigned made[] = {first.made, second.made, of_thread};
    print("made ");
    print_number(sum(made, 3));
    print("\n");
    return first.made == 1 && second.made == 12 && of_thread == 5 ? 0 : 1;
}
