/*
 * Arguments that a compiler must tell apart. Without a number, this compiles; with WRONG defined as 1 to LAST_WRONG, one line
 * has two arguments exchanged or mistaken, and must be refused.
 */
#include "hds.h"

#define LAST_WRONG 5
#define TABLE table, HDS_TABLE_LENGTH

static int64_t table[HDS_TABLE_LENGTH];

int main(void)
{
#if !defined(WRONG)
    hds_join_class(TABLE, 1, 0, hds_fixed(5000), 20);
    return (int)hds_set_share(TABLE, 1, hds_weighted(1));
#elif WRONG == 1 /* a kind in the place of a share */
    return (int)hds_join_class(TABLE, 1, 0, HDS_FIXED, 20);
#elif WRONG == 2 /* a share's number without its kind */
    return (int)hds_join_client(TABLE, 1, 0, 5000, 20);
#elif WRONG == 3 /* share and depth exchanged */
    return (int)hds_join_class(TABLE, 1, 0, 20, hds_fixed(5000));
#elif WRONG == 4 /* share and parent exchanged */
    return (int)hds_join_client(TABLE, 1, hds_weighted(1), 0, 20);
#elif WRONG == 5 /* a kind in the place of a share */
    return (int)hds_set_share(TABLE, 1, HDS_WEIGHTED);
#endif
}
