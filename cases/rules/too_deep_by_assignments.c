#define OPEN10 a = a = a = a = a = a = a = a = a = a =
#define OPEN100 OPEN10 OPEN10 OPEN10 OPEN10 OPEN10 OPEN10 OPEN10 OPEN10 OPEN10 OPEN10

void main() {
    int a;
    OPEN100 OPEN10 OPEN10 OPEN10 OPEN10 OPEN10 OPEN10 OPEN10 OPEN10 OPEN10
    a = a = a = a = a = a = a = a = 1; // error 31
}
