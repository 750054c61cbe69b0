enum E { A };
int E; // error 30

void main() { }
