#define OPEN10 ->p ->p ->p ->p ->p ->p ->p ->p ->p ->p
#define OPEN100 OPEN10 OPEN10 OPEN10 OPEN10 OPEN10 OPEN10 OPEN10 OPEN10 OPEN10 OPEN10

struct S { S* p; };

void main() {
    S* p = NULL;
    p OPEN100 OPEN10 OPEN10 OPEN10 OPEN10 OPEN10 OPEN10 OPEN10 OPEN10 OPEN10
    ->p ->p ->p ->p ->p ->p ->p ;
}
