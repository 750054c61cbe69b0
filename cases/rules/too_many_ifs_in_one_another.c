#define I if (1) if (1) if (1) if (1) if (1) if (1) if (1) if (1) if (1) if (1)
#define J I I I I I I I I I I

void main() {
    J J ; // error 31
}
