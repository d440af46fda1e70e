/* A section for each function and each datum. */
extern long outer;
char odd[5] = { 1, 2, 3, 4, 5 };
long even[2] = { 6, 7 };
const short fixed = 8;
static char room[13];
long *pointer = &even[1];

long first(long i) { return odd[i % 5] + fixed; }
long second(long i) { return first(i) + even[i & 1] + outer; }
long third(long i) { room[i % 13] = second(i); return room[0]; }
