// A text fills an array: the call of main, the statement, the variable, the initialiser, and four cells.
//b 8
//u 8
//> halted
void main() { int[4] t = "ab"; }
