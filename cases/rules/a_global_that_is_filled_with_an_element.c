int[2] v;
int a = v[0]; // error 48

void main() { }
