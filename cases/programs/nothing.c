// A program that does nothing halts.
//> halted
void main() {  }
