// A program that never halts goes on.
//> going
void main() { while (true); }
