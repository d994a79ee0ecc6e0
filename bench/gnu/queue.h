/* A queue of jobs. */
#include "names.h"

typedef u64 (*act)(u64);

int queue_put(act job, u64 with) NAMED("queue::put");
u64 queue_run(void) NAMED("queue::run");
u64 queue_price(u64 kind) NAMED("queue::price");
extern u64 queue_done NAMED("queue::done");
