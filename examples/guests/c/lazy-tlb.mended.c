/* A lazy TLB, mended: hart 0 reads who uses the page once its entry is changed, so who joins later finds the new one. */
#include "sbiboard.h"

CONDITION("never 1 load 0x1000 -> value 0x33     # nobody reads a page that was given away");
CONDITION("some 1 load 0x1000 -> value 0x22      # and hart 1 can read the new one");
BOARD(2, 16, 1000);

static u64 users;                                       /* the harts that use the page */
static u64 root[512] PAGE_ALIGNED;
static u64 middle[512] PAGE_ALIGNED;
static u64 last[512] PAGE_ALIGNED;
static u64 old_page[512] PAGE_ALIGNED = { 0x11 };
static u64 new_page[512] PAGE_ALIGNED = { 0x22 };

ENTRY(other)
{
    __atomic_fetch_or(&users, 2, __ATOMIC_SEQ_CST);
    write_satp(SV39(5, root));
    (void)AT(0x1000);                                   /* the TLB keeps the leaf that was found */
    (void)AT(0x1000);
}

ENTRY(boot)
{
    AT(root) = TABLE(middle);
    AT(middle) = TABLE(last);
    AT(last + 1) = PAGE(old_page);
    hart_start(1, other, 0);
    AT(last + 1) = PAGE(new_page);
    u64 mask = AT(&users);
    if (mask)
        remote_sfence_vma(mask, 0, 0x1000, 0x1000);
    AT(old_page) = 0x33;                                /* the old page is somebody else's */
}
