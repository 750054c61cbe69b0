int T;
typedef int[NULL] T; // error 48

void main() { }
