#define OPEN10 if (1) if (1) if (1) if (1) if (1) if (1) if (1) if (1) if (1) if (1)
#define OPEN100 OPEN10 OPEN10 OPEN10 OPEN10 OPEN10 OPEN10 OPEN10 OPEN10 OPEN10 OPEN10

void main() {
    OPEN100 OPEN10 OPEN10 OPEN10 OPEN10 OPEN10 OPEN10 OPEN10 OPEN10 OPEN10
    if (1) if (1) if (1) if (1) if (1) if (1) if (1) if (1) if (1) ; // error 31
}
