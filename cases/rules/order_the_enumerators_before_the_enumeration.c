int E;
enum E { A =
    NULL }; // error 48

void main() { }
