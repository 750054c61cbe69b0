int* p = (int*) NULL; // error 48

void main() { }
