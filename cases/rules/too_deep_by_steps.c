#define OPEN10 ++ ++ ++ ++ ++ ++ ++ ++ ++ ++
#define OPEN100 OPEN10 OPEN10 OPEN10 OPEN10 OPEN10 OPEN10 OPEN10 OPEN10 OPEN10 OPEN10

void main() {
    int p = 0;
    p OPEN100 OPEN10 OPEN10 OPEN10 OPEN10 OPEN10 OPEN10 OPEN10 OPEN10 OPEN10
    ++ ++ ++ ++ ++ ++ ++ ++ ; // error 31
}
