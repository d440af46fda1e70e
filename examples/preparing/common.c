int shared[4], counter; int bump(void) { return shared[++counter & 3]; }
