// A switch: the call of main, the statement, its expression, three labels, and a break.
//b 8
//u 7
//> halted
void main() { switch (2) { case 1: break; case 2: break; default: ; } }
