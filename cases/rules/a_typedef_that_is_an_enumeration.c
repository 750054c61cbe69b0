enum T { A };
typedef int T; // error 41

void main() { }
