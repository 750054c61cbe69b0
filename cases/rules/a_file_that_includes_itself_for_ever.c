#include "a_file_that_includes_itself_for_ever.c" // error 22

void main() { }
