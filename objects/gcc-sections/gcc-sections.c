/* A section for each function and each datum. */
extern int outer;
char odd[5] = { 1, 2, 3, 4, 5 };
int even[2] = { 6, 7 };
const short fixed = 8;
static char room[13];
int *pointer = &even[1];

int first(int i) { return odd[i % 5] + fixed; }
int second(int i) { return first(i) + even[i & 1] + outer; }
int third(int i) { room[i % 13] = second(i); return room[0]; }
