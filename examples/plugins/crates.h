/* What the crates of this folder offer to each other. */
#include "cells.h"

unsigned long counter_add(unsigned long number) CRATE(counter, add);
unsigned long counter_total(void) CRATE(counter, total);
unsigned long counter_carry(unsigned long unused) CRATE(counter, carry);
unsigned long filter_of(unsigned long number) CRATE(filter, of);
unsigned long host_go(unsigned long rounds) CRATE(host, go);
unsigned long table_keep(unsigned long number) CRATE(table, keep);
unsigned long table_go(unsigned long number) CRATE(table, go);
