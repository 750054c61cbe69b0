void main() {
    int a = port_in(SPU_Command); // error 45
}
