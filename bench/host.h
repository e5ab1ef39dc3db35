double host_sum(double x, double y);
double host_difference(double x, double y);
double host_product(double x, double y);
