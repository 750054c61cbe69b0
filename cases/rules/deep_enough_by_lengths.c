#define OPEN10 [1] [1] [1] [1] [1] [1] [1] [1] [1] [1]
#define OPEN100 OPEN10 OPEN10 OPEN10 OPEN10 OPEN10 OPEN10 OPEN10 OPEN10 OPEN10 OPEN10

// The item, the variable, 197 lengths and int.
int OPEN100 OPEN10 OPEN10 OPEN10 OPEN10 OPEN10 OPEN10 OPEN10 OPEN10 OPEN10
[1] [1] [1] [1] [1] [1] [1] v;

void main() { }
