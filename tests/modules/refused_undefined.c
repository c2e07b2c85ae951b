/* A variable of another module. */

extern int elsewhere;
int *elsewhere_at = &elsewhere;
