// A list fills an array: the call of main, the statement, the variable, the list; for each item it, its expression and its cell; two cells behind them.
//b 8
//u 12
//> halted
void main() { int[4] t = {5, 6}; }
