#include "queue.h"

enum { ROOM = 8 };

struct job {
    act act;
    u64 with;
};

static struct job waiting[ROOM];
static u32 first, count;
u64 queue_done;

int queue_put(act job, u64 with)
{
    if (count == ROOM)
        return 0;
    waiting[(first + count++) % ROOM] = (struct job){job, with};
    return 1;
}

u64 queue_run(void)
{
    u64 sum = 0;
    for (; count; count--) {
        struct job *job = &waiting[first++ % ROOM];
        sum += job->act(job->with);
        queue_done++;
    }
    return sum;
}

u64 queue_price(u64 kind)
{
    switch (kind) {
    case 0: return queue_done;
    case 1: return count;
    case 2: return 77;
    case 3: return queue_run();
    case 4: return waiting[first % ROOM].with;
    case 5: return waiting[2].with * 3;
    default: return 1;
    }
}
