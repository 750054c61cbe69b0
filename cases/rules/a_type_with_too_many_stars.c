#define S * * * * * * * * * *
#define T S S S S S S S S S S
int T T a; // error 31

void main() { }
