#define ONE \
    1
void main() {
    int a = ONE;
    x = 1;
}
