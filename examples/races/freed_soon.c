/* Memory that is used again too soon: the last of three users clears it. The count of users is atomic, but a user gives up before its last look. */
#include "racing.h"

enum { USERS = 3 };

static volatile unsigned block = 7;
static atomic_uint users = USERS;
static atomic_uint wrong_looks;

static void work(unsigned hart)
{
    think(20 + 15 * hart);
#ifdef RIGHT
    unsigned seen = block;
    unsigned before = atomic_fetch_sub(&users, 1);
#else
    unsigned before = atomic_fetch_sub(&users, 1);
    unsigned seen = block;
#endif
    if (seen != 7)
        atomic_fetch_add(&wrong_looks, 1);
    if (before == 1)
        block = 0;
}

int main(void)
{
    run_harts(USERS);
    return told(wrong_looks == 0);
}
