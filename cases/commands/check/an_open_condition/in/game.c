int a;
#ifdef A
void main() { }
