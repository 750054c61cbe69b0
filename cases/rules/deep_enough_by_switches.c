#define OPEN10 switch (1) { switch (1) { switch (1) { switch (1) { switch (1) { switch (1) { switch (1) { switch (1) { switch (1) { switch (1) {
#define OPEN100 OPEN10 OPEN10 OPEN10 OPEN10 OPEN10 OPEN10 OPEN10 OPEN10 OPEN10 OPEN10
#define CLOSE10 } } } } } } } } } }
#define CLOSE100 CLOSE10 CLOSE10 CLOSE10 CLOSE10 CLOSE10 CLOSE10 CLOSE10 CLOSE10 CLOSE10 CLOSE10

void main() {
    OPEN10 OPEN10 OPEN10 OPEN10 OPEN10 OPEN10 OPEN10 OPEN10 OPEN10
    switch (1) { switch (1) { switch (1) { switch (1) { switch (1) { switch (1) { switch (1) { switch (1) { switch (1) { ;
    CLOSE10 CLOSE10 CLOSE10 CLOSE10 CLOSE10 CLOSE10 CLOSE10 CLOSE10 CLOSE10
    } } } } } } } } }
}
