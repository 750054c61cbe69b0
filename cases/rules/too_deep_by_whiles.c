#define OPEN10 while (0) while (0) while (0) while (0) while (0) while (0) while (0) while (0) while (0) while (0)
#define OPEN100 OPEN10 OPEN10 OPEN10 OPEN10 OPEN10 OPEN10 OPEN10 OPEN10 OPEN10 OPEN10

void main() {
    OPEN100 OPEN10 OPEN10 OPEN10 OPEN10 OPEN10 OPEN10 OPEN10 OPEN10 OPEN10
    while (0) while (0) while (0) while (0) while (0) while (0) while (0) while (0) while (0) ; // error 31
}
