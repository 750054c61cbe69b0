// Each further turn of a loop takes one of the bound.
//b 3
//> wait
//> wait
//> wait
//> out of bound
void main() { while (true) wait_frame(); }
