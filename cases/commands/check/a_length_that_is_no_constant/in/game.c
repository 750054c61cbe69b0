int n = 3;
int[n] a;
void main() { }
