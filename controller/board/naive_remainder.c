/* A control of the tests: the remainder as one might write it, right for most numbers that a recipe meets, and not C's fmodf. */
float naive_remainder(float x, float y);
float naive_remainder(float x, float y)
{
    return x - (float)(long long)(x / y) * y;
}
