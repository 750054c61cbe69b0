int main();

void main() { } // error 42
