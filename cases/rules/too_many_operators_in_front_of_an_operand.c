#define M - ! - ! - ! - ! - !
#define N M M M M M M M M M M

void main() {
    N N 1; // error 31
}
