/* The two layouts of the map's record, behind their heads. A slot whose key is 0 is free. */
struct record_1 {
    struct state state;
    struct { unsigned long key, value; } slots[16];
};

struct record_2 {
    struct state state;
    unsigned long used;
    unsigned long keys[32];
    unsigned long values[32];
};
