#define OPEN10 (int) (int) (int) (int) (int) (int) (int) (int) (int) (int)
#define OPEN100 OPEN10 OPEN10 OPEN10 OPEN10 OPEN10 OPEN10 OPEN10 OPEN10 OPEN10 OPEN10

void main() {
    OPEN100 OPEN10 OPEN10 OPEN10 OPEN10 OPEN10 OPEN10 OPEN10 OPEN10 OPEN10
    (int) (int) (int) (int) (int) (int) (int) 1;
}
