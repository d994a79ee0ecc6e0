/* The two layouts of the map's record. A slot whose key is 0 is free. */
struct record_1 {
    struct { unsigned long key, value; } slots[16];
};

struct record_2 {
    unsigned long used;
    unsigned long keys[32];
    unsigned long values[32];
};
