// error 46

/* The fault stands at line 1. */
