/* Loads and stores of floating-point registers by the low halves of pairs, above 2^32. */
extern float outer;
static float gain = 1.5f;
double total;
float scale(float x)
{
    float y = x * gain + 0.25f;
    total += y;
    outer = y;
    return y / 3.0f;
}
