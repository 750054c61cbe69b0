#define OPEN10 if (1) ; else if (1) ; else if (1) ; else if (1) ; else if (1) ; else if (1) ; else if (1) ; else if (1) ; else if (1) ; else if (1) ; else
#define OPEN100 OPEN10 OPEN10 OPEN10 OPEN10 OPEN10 OPEN10 OPEN10 OPEN10 OPEN10 OPEN10

void main() {
    OPEN100 OPEN10 OPEN10 OPEN10 OPEN10 OPEN10 OPEN10 OPEN10 OPEN10 OPEN10
    if (1) ; else if (1) ; else if (1) ; else if (1) ; else if (1) ; else if (1) ; else if (1) ; else if (1) ; else ;
}
