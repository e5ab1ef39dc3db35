/* The processor's own operations, each in a function that the benchmark calls and its compiler does not see. */
#include "host.h"

double host_sum(double x, double y) { return x + y; }
double host_difference(double x, double y) { return x - y; }
double host_product(double x, double y) { return x * y; }
