double fog_exp(double);
double fog_ln(double);
double fog_expm1(double);
double fog_lgamma(double);
