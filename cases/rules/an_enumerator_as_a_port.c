enum E { A = 0x202 };

void main() {
    port_out(A, 1); // error 45
}
