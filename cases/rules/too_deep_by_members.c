#define OPEN10 .p .p .p .p .p .p .p .p .p .p
#define OPEN100 OPEN10 OPEN10 OPEN10 OPEN10 OPEN10 OPEN10 OPEN10 OPEN10 OPEN10 OPEN10

struct S { int p; };

void main() {
    S p;
    p OPEN100 OPEN10 OPEN10 OPEN10 OPEN10 OPEN10 OPEN10 OPEN10 OPEN10 OPEN10
    .p .p .p .p .p .p .p .p ; // error 31
}
