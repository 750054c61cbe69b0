int a;
int a;
void main() { }
