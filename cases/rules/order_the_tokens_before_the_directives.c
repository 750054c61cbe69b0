#error
int 1;

void main() { }

@ // error 10
