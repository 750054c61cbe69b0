#define OPEN10 [1] [1] [1] [1] [1] [1] [1] [1] [1] [1]
#define OPEN100 OPEN10 OPEN10 OPEN10 OPEN10 OPEN10 OPEN10 OPEN10 OPEN10 OPEN10 OPEN10

// The item, the variable, 198 lengths and int.
int OPEN100 OPEN10 OPEN10 OPEN10 OPEN10 OPEN10 OPEN10 OPEN10 OPEN10 OPEN10
[1] [1] [1] [1] [1] [1] [1] [1] v; // error 31

void main() { }
