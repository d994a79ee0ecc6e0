/* Puts jobs into the queue, from tables of functions and of addresses. */
#include "queue.h"

static u64 twice(u64 n) { return 2 * n; }

u64 shop_stock[40] NAMED("shop::stock");
static u64 stocked(u64 n) { return shop_stock[n % 40] + n; }

const act shop_acts[] NAMED("shop::acts") = {twice, stocked, queue_price, 0};
u64 *shop_places[] NAMED("shop::places") = {&shop_stock[3], shop_stock + 40, shop_stock - 1, &queue_done};

u64 shop_work(u64 n) NAMED("shop::work");
u64 shop_work(u64 n)
{
    for (u64 i = 0; shop_acts[i]; i++)
        if (!queue_put(shop_acts[i], n + i))
            return 0;
    *shop_places[n % 4] = queue_run();
    return queue_done;
}
