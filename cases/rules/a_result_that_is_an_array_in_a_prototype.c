int[3] f(); // error 42

void main() { }
